//! What lists of packets showed, counted.

use std::fmt;

use crate::receiver::KINDS;

/// The kinds of packets, and what else a list has.
const NAMES: usize = KINDS.len() + OTHERS.len();
const OTHERS: [&str; 3] = [NO_PACKET, TOO_FEW, BAD_LINE];
pub const NO_PACKET: &str = "no packet";
pub const TOO_FEW: &str = "too few";
pub const BAD_LINE: &str = "bad line";

fn names() -> impl Iterator<Item = &'static str> {
    KINDS.iter().map(|&(_, name)| name).chain(OTHERS)
}

#[derive(Default)]
pub struct Tally {
    /// How many inputs were listed.
    pub inputs: u64,
    /// How many bytes they had.
    pub bytes: u64,
    counts: [u64; NAMES],
}

impl Tally {
    /// A list of the packets of one input.
    pub fn saw(&mut self, listing: &[u8]) {
        self.inputs += 1;
        for line in listing.split(|&byte| byte == b'\n').skip(1) {
            let mut fields = line.split(|&byte| byte == b'\t');
            let (name, bytes) = (fields.next(), fields.next());
            let place = names().position(|known| name.is_some_and(|name| is(name, known)));
            if let (Some(place), Some(bytes)) = (place, bytes) {
                self.counts[place] += 1;
                self.bytes += bytes.len() as u64 / 2;
            }
        }
    }

    pub fn add(&mut self, other: &Tally) {
        self.inputs += other.inputs;
        self.bytes += other.bytes;
        for (count, more) in self.counts.iter_mut().zip(other.counts) {
            *count += more;
        }
    }

    /// What was seen fewer times than `least`, but for what need not be seen.
    pub fn lacks(&self, least: u64, but: &[&str]) -> Vec<String> {
        let counts = names().zip(self.counts);
        counts
            .filter(|(name, count)| *count < least && !but.contains(name))
            .map(|(name, count)| format!("{count} {name}, fewer than {least}"))
            .collect()
    }
}

/// A bad line has its number behind its name.
fn is(name: &[u8], known: &str) -> bool {
    match name.strip_prefix(known.as_bytes()) {
        Some(rest) => rest.is_empty() || known == BAD_LINE,
        None => false,
    }
}

impl fmt::Display for Tally {
    fn fmt(&self, f: &mut fmt::Formatter<'_>) -> fmt::Result {
        let counts = names().zip(self.counts);
        let words: Vec<String> = counts
            .map(|(name, count)| format!("{count} {name}"))
            .collect();
        f.write_str(&words.join(", "))
    }
}

#[cfg(test)]
mod tests {
    use super::*;

    #[test]
    fn an_empty_run_lacks_every_name() {
        assert_eq!(Tally::default().lacks(1, &[]).len(), NAMES);
        assert_eq!(Tally::default().lacks(1, &[TOO_FEW]).len(), NAMES - 1);
    }

    #[test]
    fn a_list_is_counted_by_its_names() {
        let mut tally = Tally::default();
        tally.saw(b"packet\tbytes\nbreak\t9E\nbad line 12\t-\nno packet\t80\ntoo few\tF601\n");
        assert_eq!((tally.inputs, tally.bytes), (1, 4));
        assert_eq!(tally.counts, [0, 1, 0, 0, 0, 0, 0, 0, 0, 1, 1, 1]);
    }
}
