//! What sessions showed, counted: sums that agree are worth something only if
//! there was much to add up.

use std::fmt;

use super::packets::Said;

#[derive(Clone, Copy, Debug, PartialEq, Eq)]
pub enum Seen {
    Inputs,
    Motions,
    Packets,
    Closings,
    PausedButtons,
    Resumes,
    LongResumes,
    KeptByResume,
    NoResume,
    BothLimits,
    Origins,
    TakenAway,
    Dropped,
    LevelOnly,
    KeyButtons,
    Unchanged,
    WithinCommand,
    LookAlikes,
    NoReset,
    NoPackets,
    OutOfRange,
    FullButtons,
    QueueFull,
    MotionFull,
}

/// The counts in the order of the line that is printed, in words, with the least
/// that a run must show: of inputs about a quarter, and of all else about a tenth,
/// of what the gate's run shows.
#[rustfmt::skip]
const COUNTS: [(Seen, &str, u64); 24] = [
    (Seen::Inputs, "inputs added up", 100_000),
    (Seen::Motions, "motions", 10_000),
    (Seen::Packets, "packets", 5_000),
    (Seen::Closings, "closings", 900),
    (Seen::PausedButtons, "buttons while paused with motion held", 350),
    (Seen::Resumes, "resumes that sent motion", 400),
    (Seen::LongResumes, "of them with more than one packet", 160),
    (Seen::KeptByResume, "resumes that left motion held", 270),
    (Seen::NoResume, "ignored commands while paused with motion held", 220),
    (Seen::BothLimits, "motions to the limit of both axes", 120),
    (Seen::Origins, "origins turned with motion held", 280),
    (Seen::TakenAway, "mice taken away with motion held", 350),
    (Seen::Dropped, "motions dropped then", 2_300),
    (Seen::LevelOnly, "buttons then with motion held", 210),
    (Seen::KeyButtons, "buttons as keys with motion held", 120),
    (Seen::Unchanged, "unchanged buttons with motion held", 1_000),
    (Seen::WithinCommand, "motions within a command", 400),
    (Seen::LookAlikes, "parameters like excluded commands", 1_300),
    (Seen::NoReset, "commands 80 without 01", 50),
    (Seen::NoPackets, "bytes F8 to FB that are no packets", 220),
    (Seen::OutOfRange, "events refused with 1", 320),
    (Seen::FullButtons, "buttons with motion held refused with 2", 150),
    (Seen::QueueFull, "other events refused with 2", 300),
    (Seen::MotionFull, "motions refused with 3", 190),
];

/// The commands that resume: 07, 0B, 0C, 0F, 10, 11, 14 to 1C, and the inquiries.
const RESUMING: u64 = 15 + 14;

#[derive(Clone, Default)]
pub struct Tally {
    counts: [u64; COUNTS.len()],
    /// The sum of what motions brought, which is what packets said.
    brought: [i64; 2],
    /// The codes of commands that resumed and sent motion.
    codes: std::collections::BTreeSet<u8>,
}

impl Tally {
    pub fn saw(&mut self, seen: Seen) {
        self.counts[seen as usize] += 1;
    }

    pub fn saw_if(&mut self, seen: Seen, is_so: bool) {
        self.counts[seen as usize] += u64::from(is_so);
    }

    /// An input that was taken, by what came back for it.
    pub fn taken(&mut self, said: Said) {
        self.saw(Seen::Inputs);
        self.counts[Seen::Packets as usize] += said.packets;
        self.counts[Seen::NoPackets as usize] += said.no_packets;
    }

    pub fn resume_sent(&mut self, code: u8) {
        self.saw(Seen::Resumes);
        self.codes.insert(code);
    }

    pub fn closed(&mut self, brought: [i32; 2]) {
        self.saw(Seen::Closings);
        for (total, part) in self.brought.iter_mut().zip(brought) {
            *total += i64::from(part);
        }
    }

    /// What there was too little of.
    pub fn lacks(&self) -> Vec<String> {
        let counts = COUNTS.iter().zip(&self.counts);
        let mut lacks: Vec<String> = counts
            .filter(|((.., least), count)| count < &least)
            .map(|((_, words, least), count)| format!("{count} {words}, fewer than {least}"))
            .collect();
        let codes = self.codes.len() as u64;
        if codes < RESUMING {
            lacks.push(format!(
                "{codes} commands that resumed with motion, fewer than {RESUMING}"
            ));
        }
        lacks
    }
}

impl fmt::Display for Tally {
    fn fmt(&self, f: &mut fmt::Formatter<'_>) -> fmt::Result {
        let [x, y] = self.brought;
        for ((seen, words, _), count) in COUNTS.iter().zip(&self.counts) {
            match seen {
                Seen::Inputs => write!(f, "{count} {words}: ")?,
                Seen::Motions => write!(f, "{count} {words} brought X {x} Y {y}")?,
                Seen::Packets => write!(f, ", {count} {words} said the same")?,
                Seen::Resumes => write!(f, ", {count} {words} by {} commands", self.codes.len())?,
                _ => write!(f, ", {count} {words}")?,
            }
        }
        Ok(())
    }
}

#[cfg(test)]
mod tests {
    use super::*;

    #[test]
    fn every_count_has_its_words() {
        for (place, (seen, ..)) in COUNTS.iter().enumerate() {
            assert_eq!(*seen as usize, place);
        }
    }

    #[test]
    fn an_empty_run_lacks_everything() {
        assert_eq!(Tally::default().lacks().len(), COUNTS.len() + 1);
    }
}
