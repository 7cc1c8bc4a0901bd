//! Strings of at most 12 bytes, each cut in a run of the program of its own: what
//! is left of one would else be joined with the next, and a fault that shows at the
//! input's end would be seen in the last alone.

use std::sync::atomic::{AtomicBool, Ordering};

use super::bytes::{bytes, left_over, push_bytes, text_of};
use super::check;
use super::tally::Tally;
use crate::random::Random;

/// How many bytes a string has at most.
const LONGEST: usize = 12;
/// Every first byte comes with every length from the longest down to 1, and last
/// comes no byte.
const WITH_EVERY_START: u64 = 256 * LONGEST as u64 + 1;
/// Runs of the program go side by side, since starting it takes the most time.
const THREADS: u64 = 2;

/// How many strings are tried with `count` made at random.
pub fn tried(count: u64) -> u64 {
    WITH_EVERY_START + count
}

/// Tries every first byte, and `count` strings made at random.
pub fn check_all(program: &str, seed: u64, count: u64) -> Result<Tally, String> {
    let stop = &AtomicBool::new(false);
    let check_part = move |part: u64| {
        let numbers = (part..tried(count)).step_by(THREADS as usize);
        let tally = check_runs(program, seed, numbers, stop);
        if tally.is_err() {
            stop.store(true, Ordering::Relaxed);
        }
        tally
    };
    std::thread::scope(|scope| {
        let parts: Vec<_> = (0..THREADS)
            .map(|part| scope.spawn(move || check_part(part)))
            .collect();
        let mut all = Tally::default();
        for part in parts {
            all.add(&part.join().expect("a part that ends")?);
        }
        Ok(all)
    })
}

/// Tries the strings of these numbers, until told to stop.
fn check_runs(
    program: &str,
    seed: u64,
    numbers: impl Iterator<Item = u64>,
    stop: &AtomicBool,
) -> Result<Tally, String> {
    let mut tally = Tally::default();
    for number in numbers.take_while(|_| !stop.load(Ordering::Relaxed)) {
        tally.saw(&check(program, "strings", &string(seed, number))?);
    }
    Ok(tally)
}

/// The string of a number, from 0, as the lines of an input: first the first bytes
/// in turn, with 11 bytes behind them and then with fewer; then the empty input;
/// and then strings at random in lines at random. Half of these end where a packet
/// does.
pub fn string(seed: u64, number: u64) -> Vec<u8> {
    let random = &mut Random::new(seed.rotate_left(32) ^ number);
    if number >= WITH_EVERY_START {
        let count = random.below(LONGEST as u64 + 1) as usize;
        let mut bytes = bytes(random, count);
        if random.one_in(2) {
            bytes.truncate(bytes.len() - left_over(&bytes));
        }
        return text_of(random, &bytes);
    }
    let mut text = Vec::new();
    let length = LONGEST - (number / 256) as usize;
    if length > 0 {
        let mut bytes = vec![(number % 256) as u8];
        bytes.resize_with(length, || random.byte());
        push_bytes(&bytes, &mut text);
        text.push(b'\n');
    }
    text
}

#[cfg(test)]
mod tests {
    use super::*;
    use crate::listing::bytes_of;

    #[test]
    fn every_first_byte_comes_with_every_length_and_then_no_byte() {
        let strings = (0..WITH_EVERY_START).map(|number| string(1, number));
        let met: std::collections::BTreeSet<(Vec<u8>, usize)> = strings
            .map(|text| (text.iter().take(2).copied().collect(), text.len()))
            .collect();
        assert_eq!(met.len(), 256 * LONGEST + 1);
        assert!(met.contains(&(Vec::new(), 0)));
        assert!(met.contains(&(b"00".to_vec(), 3)) && met.contains(&(b"FF".to_vec(), 25)));
    }

    /// The empty input has its run, so that no other string is without lines.
    #[test]
    fn strings_at_random_have_lines_and_up_to_12_bytes() {
        let texts = (WITH_EVERY_START..tried(5_000)).map(|number| string(1, number));
        let mut lengths = [0; LONGEST + 1];
        for text in texts {
            assert!(!text.is_empty());
            let lines = text.split(|&byte| byte == b'\n');
            let bytes: Vec<_> = lines.filter_map(bytes_of).flatten().collect();
            lengths[bytes.len()] += 1;
        }
        assert!(lengths.iter().all(|&count| count > 100), "{lengths:?}");
    }
}
