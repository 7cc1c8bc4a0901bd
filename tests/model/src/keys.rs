//! "Which keys are down": the map of request A1.

use std::ops::RangeInclusive;

/// "Key: code 1 to 0x72"
pub const CODES: RangeInclusive<u8> = 1..=LAST;
/// The highest code of a key.
pub const LAST: u8 = 0x72;
/// How many keys there are.
pub const COUNT: usize = LAST as usize;

/// "a map of keys 1 to 0x72"
#[derive(Clone, Copy, Debug, PartialEq, Eq)]
pub struct Keys {
    /// By code. No key has code 0, so that its place is never set.
    down: [bool; COUNT + 1],
}

impl Keys {
    /// "all else zero"
    pub const POWER_UP: Keys = Keys {
        down: [false; COUNT + 1],
    };

    /// "set on a press and cleared on a release, repeats changing nothing"
    pub fn follow(&mut self, code: u8, down: bool) {
        self.down[usize::from(code)] = down;
    }

    pub fn is_down(&self, code: u8) -> bool {
        self.down[usize::from(code)]
    }

    /// The keys that are down, "lowest first".
    pub fn held(&self) -> impl DoubleEndedIterator<Item = u8> + '_ {
        CODES.filter(|&code| self.is_down(code))
    }

    /// "how many keys are held, counted from the map on each call"
    pub fn count(&self) -> u8 {
        self.held().count() as u8
    }
}
