//! Keys that stay down, and resets that name them.

use super::{Generator, LAMP};
use crate::keys::{CODES, COUNT};

/// The number of keys, to count with.
const ALL: i32 = COUNT as i32;
/// One more than a reset ever sends: 0xF0 and a break for each key.
const PAST_A_RESET: i32 = 1 + ALL + 1;

impl Generator {
    /// Some keys go down, and resets name them.
    pub(super) fn stuck_keys(&mut self) {
        let count = match self.random.below(24) {
            0 => self.random.between(100, ALL),
            1 => self.random.between(7, 60),
            _ => self.random.between(1, 6),
        };
        let keys = self.some_keys(count as usize);
        self.hold(&keys);
        self.name(&keys);
    }

    /// Every key is released, so that a reset has few to name for a while.
    pub(super) fn no_keys(&mut self) {
        for code in CODES {
            self.key_line(code, false);
        }
        self.reset();
    }

    /// Room for what a reset sends, or not: short, any, or about the longest.
    pub(super) fn lent_for_keys(&mut self) -> usize {
        let lent = match self.random.below(12) {
            0 | 1 => self.random.between(0, 2),
            2..=5 => self.random.between(0, 20),
            6..=10 => self.random.between(21, PAST_A_RESET),
            _ => self.random.between(ALL - 1, PAST_A_RESET),
        };
        lent as usize
    }

    /// From power-up, as many keys as a reset has just room to name in a buffer
    /// of this length, one less, or one or two more.
    pub(super) fn keys_for(&mut self, lent: usize) {
        let count = lent as i32 - 1 + self.random.pick(&[-1, 0, 0, 0, 1, 1, 2]);
        let keys = self.some_keys(count.clamp(1, ALL) as usize);
        self.hold(&keys);
        self.name(&keys);
    }

    /// So many different keys, in any order.
    fn some_keys(&mut self, count: usize) -> Vec<u8> {
        let mut keys: Vec<u8> = CODES.collect();
        for place in 0..count {
            let other = place + self.random.below((COUNT - place) as u64) as usize;
            keys.swap(place, other);
        }
        keys.truncate(count);
        keys
    }

    /// Presses keys: in either monitoring mode, paused, or heard at once. In the
    /// end they may be heard again.
    fn hold(&mut self, keys: &[u8]) {
        match self.random.below(7) {
            0 | 1 => self.command(0x17),
            2 => self.host(0x18),
            3 => self.host(0x13),
            4 => self.exactly(&[0x17, 0x05, 0x13]),
            _ => {}
        }
        for &code in keys {
            self.key_line(code, true);
            match self.random.below(40) {
                0 => self.key_line(code, true),
                1 => self.edge(),
                2 => self.question(LAMP, 1),
                _ => {}
            }
        }
        if self.random.one_in(2) {
            self.host(0x14);
        }
    }

    pub(super) fn reset(&mut self) {
        self.question(LAMP, 3);
        self.exactly(&[0x80, 0x01]);
        self.question(LAMP, 2);
    }

    /// Resets, and between them changes of what there is to name.
    fn name(&mut self, keys: &[u8]) {
        self.reset();
        for _ in 0..=self.random.below(4) {
            let code = self.random.pick(keys);
            match self.random.below(8) {
                0..=2 => self.key_line(code, false),
                3 => self.key_line(code, true),
                4 => self.key(),
                5 => self.event(),
                // The last byte again, where the reset was refused.
                6 => self.host(0x01),
                _ => self.reset(),
            }
            self.question(LAMP, 4);
        }
        self.reset();
    }
}
