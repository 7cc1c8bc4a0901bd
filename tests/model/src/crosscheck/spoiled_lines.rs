//! Spoiled lines: the program answers as the model does, and goes on from the
//! same state.

use std::collections::BTreeMap;
use std::fmt;

use super::{beside, shown, Batch, Reply, BATCH};
use crate::arbitrary;
use crate::random::Random;
use crate::saved::LONGEST;
use crate::spoil::{line_of, spoiled, Kind, KINDS};
use crate::state::State;

/// How many lines of each kind were read, and how many refused.
#[derive(Default)]
pub struct Tally {
    counts: BTreeMap<Kind, [u64; 2]>,
}

impl Tally {
    /// How many were read, and how many refused.
    pub fn totals(&self) -> [u64; 2] {
        let counts = self.counts.values();
        counts.fold([0, 0], |[read, refused], [more_read, more_refused]| {
            [read + more_read, refused + more_refused]
        })
    }

    /// What there was too little of: half of each kind's share, one in 20 that
    /// are read, and half that are refused.
    pub fn lacks(&self, tried: u64) -> Vec<String> {
        let least = tried / KINDS.len() as u64 / 2;
        let mut lacks = Vec::new();
        for (kind, words) in KINDS {
            let [read, refused] = self.counts.get(&kind).copied().unwrap_or_default();
            if read + refused < least {
                lacks.push(format!("{words}: {}, fewer than {least}", read + refused));
            }
        }
        let [read, refused] = self.totals();
        if read < tried / 20 || refused < tried / 2 {
            lacks.push(format!("{read} were read and {refused} refused"));
        }
        lacks
    }
}

impl fmt::Display for Tally {
    fn fmt(&self, f: &mut fmt::Formatter<'_>) -> fmt::Result {
        for (kind, words) in KINDS {
            let [read, refused] = self.counts.get(&kind).copied().unwrap_or_default();
            writeln!(f, "  {words}: {read} read, {refused} refused")?;
        }
        Ok(())
    }
}

struct Spoiled {
    kind: Kind,
    line: Vec<u8>,
    /// Where its answer stands among those of the batch.
    place: usize,
}

/// Tries so many lines; what is wrong, if something is.
pub fn check(
    program: &str,
    count: u64,
    random: &mut Random,
    tally: &mut Tally,
) -> Result<(), String> {
    let mut left = count;
    while left > 0 {
        let tried = left.min(BATCH);
        left -= tried;
        check_batch(program, tried, random, tally)?;
    }
    Ok(())
}

fn check_batch(
    program: &str,
    count: u64,
    random: &mut Random,
    tally: &mut Tally,
) -> Result<(), String> {
    let mut batch = Batch::new(LONGEST);
    let mut lines = Vec::new();
    for _ in 0..count {
        // Another state before it, so that power-up is seen to be handed back.
        if random.one_in(4) {
            batch.load(&line_of(&arbitrary::state(random)));
        }
        let (kind, _) = random.pick(&KINDS);
        let line = spoiled(random, kind);
        let place = batch.expected.len();
        batch.load(&line);
        batch.save();
        lines.push(Spoiled { kind, line, place });
    }
    let replies = batch.replies(program)?;
    for Spoiled { kind, line, place } in lines {
        let (answer, state) = &batch.expected[place];
        let place = place..place + 2;
        check_line(*answer, state, &replies[place]).map_err(|what| {
            let (_, words) = KINDS[kind as usize];
            format!("{words}: {what}\nloaded: {}", shown(&line))
        })?;
        let counts = tally.counts.entry(kind).or_default();
        counts[usize::from(*answer != 0)] += 1;
    }
    Ok(())
}

fn check_line(answer: u8, state: &State, replies: &[Reply]) -> Result<(), String> {
    let [loaded, saved] = replies else {
        return Err(String::from("no reply"));
    };
    if loaded.answer != answer || !loaded.bytes.is_empty() {
        return Err(format!("answered {}, not {answer}", loaded.answer));
    }
    match saved.answer == 0 && saved.bytes == line_of(state) {
        true => Ok(()),
        false => Err(format!(
            "answered {answer}, but goes on from another state\n{}",
            beside(state, &saved.bytes)
        )),
    }
}

#[cfg(test)]
mod tests {
    use super::*;

    #[test]
    fn every_kind_has_its_words() {
        for (place, (kind, _)) in KINDS.iter().enumerate() {
            assert_eq!(*kind as usize, place);
        }
    }

    #[test]
    fn an_empty_run_lacks_every_kind() {
        assert_eq!(Tally::default().lacks(50_000).len(), KINDS.len() + 1);
    }
}
