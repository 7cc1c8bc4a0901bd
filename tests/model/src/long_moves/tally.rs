//! What was seen of the moves, counted: packets that keep the laws are worth
//! something only if there were many moves, and long ones.

use std::collections::BTreeSet;
use std::fmt;

use super::laws::Packet;
use super::moves::Way;
use super::session::Move;

/// What was seen of one way.
#[derive(Clone, Debug, Default, PartialEq, Eq)]
struct Seen {
    moves: usize,
    packets: usize,
    /// Moves whose packets are not all the same.
    uneven: usize,
    /// The most packets of a move.
    longest: usize,
    /// The totals on X and on Y.
    totals: [BTreeSet<i32>; 2],
}

/// The least of each way: moves, packets, uneven moves, packets of a move, and
/// totals on each axis. A right program shows just that.
#[rustfmt::skip]
const LEAST: [(Way, [usize; 5]); 4] = [
    (Way::Resume, [28_615, 375_792, 25_454, 16, 4_065]),
    (Way::PausedButton, [28_615, 375_795, 25_454, 16, 4_065]),
    (Way::Button, [3_135, 5_733, 1_303, 2, 509]),
    (Way::Motion, [3_991, 10_330, 2_218, 3, 637]),
];
const WORDS: [&str; 5] = [
    "moves",
    "packets",
    "moves whose packets differ",
    "packets for a move",
    "totals on an axis",
];

#[derive(Default)]
pub struct Tally {
    seen: [Seen; LEAST.len()],
}

impl Tally {
    /// A move and its packets, which keep the laws.
    pub fn saw(&mut self, a_move: &Move, packets: &[Packet]) {
        let seen = &mut self.seen[a_move.way as usize];
        seen.moves += 1;
        seen.packets += packets.len();
        seen.uneven += usize::from(packets.windows(2).any(|pair| pair[0] != pair[1]));
        seen.longest = seen.longest.max(packets.len());
        for (totals, total) in seen.totals.iter_mut().zip(a_move.totals) {
            totals.insert(total);
        }
    }

    /// What there was too little of.
    pub fn lacks(&self) -> Vec<String> {
        let mut lacks = Vec::new();
        for ((way, least), seen) in LEAST.iter().zip(&self.seen) {
            for ((words, least), count) in WORDS.iter().zip(least).zip(seen.counts()) {
                if count < *least {
                    let way = way.words();
                    lacks.push(format!("{count} {words} by {way}, fewer than {least}"));
                }
            }
        }
        lacks
    }
}

impl Seen {
    /// In the order of the words.
    fn counts(&self) -> [usize; WORDS.len()] {
        let [x, y] = self.totals.each_ref().map(BTreeSet::len);
        [
            self.moves,
            self.packets,
            self.uneven,
            self.longest,
            x.min(y),
        ]
    }
}

impl fmt::Display for Tally {
    fn fmt(&self, f: &mut fmt::Formatter<'_>) -> fmt::Result {
        let moves: usize = self.seen.iter().map(|seen| seen.moves).sum();
        let packets: usize = self.seen.iter().map(|seen| seen.packets).sum();
        write!(f, "{moves} moves in {packets} packets")?;
        for ((way, _), seen) in LEAST.iter().zip(&self.seen) {
            let [moves, packets, uneven, longest, totals] = seen.counts();
            write!(
                f,
                "; by {}: {moves} moves with {totals} totals on each axis in {packets} packets, \
                 at most {longest} for a move, {uneven} moves whose packets differ",
                way.words()
            )?;
        }
        Ok(())
    }
}

#[cfg(test)]
mod tests {
    use super::*;

    #[test]
    fn every_way_has_its_place() {
        for (place, (way, _)) in LEAST.iter().enumerate() {
            assert_eq!((*way as usize, Way::ALL[place]), (place, *way));
        }
    }

    #[test]
    fn an_empty_run_lacks_everything() {
        assert_eq!(Tally::default().lacks().len(), LEAST.len() * WORDS.len());
    }
}
