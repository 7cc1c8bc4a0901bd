//! What a wrong variant does against request A2.

use super::Rules;
use crate::clock::Clock;
use crate::command::Command;
use crate::keys::LAST;
use crate::limits::HELD_LIMIT;

/// The first are wrong in writing and reading alike, so that what one writes it
/// also reads; the next read what no state writes, or not what some state
/// writes; the last err beside the line, or write another state's.
#[derive(Clone, Copy, Debug, PartialEq, Eq)]
pub enum SavedFault {
    /// An axis's wait stands before its age.
    WaitFirst,
    /// Held motion is counted from -2,032, so that it has no sign.
    HeldFromLimit,
    /// The first sample stands in bit 0.
    FirstSampleLow,
    /// The latches stand in the opposite order of bits.
    LatchesTurned,
    /// Key 1 is the last digit of the map.
    LastKeyFirst,
    /// A line is read without its line feed.
    NoLineFeed,
    /// A queue that is too long is cut.
    QueueCut,
    /// Every month may have 31 days.
    DaysBeyond,
    /// 29 February is refused in every year.
    NoLeapDay,
    /// Held motion may go beyond 254 in every mode, paused or not.
    HeldBeyond,
    /// A coordinate may be above its maximum.
    BeyondMaximum,
    /// The third byte of a 0x20 may be 0, with no data to come.
    NoData,
    /// Numbers of modes that are not on are forgotten.
    Unused,
    /// The room for a line is counted without its line feed.
    RoomForLineFeed,
    /// A line that is refused leaves the state as it was.
    KeptWhenRefused,
    /// A half-received command is not written.
    CommandForgotten,
}

/// The variants 20 to 35.
pub(super) fn wrong_with_saved_lines(number: u32) -> Option<SavedFault> {
    Some(match number {
        20 => SavedFault::WaitFirst,
        21 => SavedFault::HeldFromLimit,
        22 => SavedFault::FirstSampleLow,
        23 => SavedFault::LatchesTurned,
        24 => SavedFault::LastKeyFirst,
        25 => SavedFault::NoLineFeed,
        26 => SavedFault::QueueCut,
        27 => SavedFault::DaysBeyond,
        28 => SavedFault::NoLeapDay,
        29 => SavedFault::HeldBeyond,
        30 => SavedFault::BeyondMaximum,
        31 => SavedFault::NoData,
        32 => SavedFault::Unused,
        33 => SavedFault::RoomForLineFeed,
        34 => SavedFault::KeptWhenRefused,
        35 => SavedFault::CommandForgotten,
        _ => return None,
    })
}

impl Rules {
    /// Whether this is what the variant does wrong.
    pub fn has_fault(&self, fault: SavedFault) -> bool {
        self.saved_fault == Some(fault)
    }

    /// "X's age and wait before Y's": age and wait as they are saved, and back.
    pub fn saved_counts(&self, counts: [u16; 2]) -> [u16; 2] {
        let [age, wait] = counts;
        match self.saved_fault {
            Some(SavedFault::WaitFirst) => [wait, age],
            _ => counts,
        }
    }

    /// What held motion of 0 is saved as.
    pub fn held_origin(&self) -> i32 {
        match self.saved_fault {
            Some(SavedFault::HeldFromLimit) => HELD_LIMIT,
            _ => 0,
        }
    }

    /// "samples [...] last in bit 0": their bits as they are saved, and back.
    pub fn saved_samples(&self, bits: u8, count: u8) -> u8 {
        match self.saved_fault {
            Some(SavedFault::FirstSampleLow) if count > 0 => bits.reverse_bits() >> (8 - count),
            _ => bits,
        }
    }

    /// "Latches and sticks are their reported bytes": latches as they are saved,
    /// and back.
    pub fn saved_latches(&self, latches: u8) -> u8 {
        match self.saved_fault {
            Some(SavedFault::LatchesTurned) => latches.reverse_bits() >> 4,
            _ => latches,
        }
    }

    /// "key 1 first": the key whose digit stands in this place, from 1.
    pub fn saved_key(&self, place: u8) -> u8 {
        match self.saved_fault {
            Some(SavedFault::LastKeyFirst) => LAST + 1 - place,
            _ => place,
        }
    }

    /// The half-received command as it is saved.
    pub fn saved_command(&self, command: Command) -> Command {
        match self.saved_fault {
            Some(SavedFault::CommandForgotten) => Command::default(),
            _ => command,
        }
    }

    /// "the clock shows a date and time that exist": the last day that is read.
    pub fn saved_last_day(&self, clock: &Clock) -> u8 {
        let last_day = clock.last_day(self);
        match self.saved_fault {
            Some(SavedFault::DaysBeyond) => 31,
            Some(SavedFault::NoLeapDay) if last_day == self.leap_day => 28,
            _ => last_day,
        }
    }
}
