//! What a wrong variant does against request A5, or in listing packets.

use super::Rules;
use crate::receiver::Kind;

#[derive(Clone, Copy, Debug, PartialEq, Eq)]
pub enum ReceiverFault {
    /// 0x80 is the break of a key 0.
    Break80,
    /// 0xF3 is the break of a key 0x73.
    BreakF3,
    /// A status reply has the seven bytes of a command.
    ShortStatus,
    /// The time has six bytes.
    ShortTime,
    /// A report of both sticks has two bytes.
    ShortSticks,
    /// No key is above 0x72, so that 0x74 and 0x75 start no packet.
    NoButtonKeys,
    /// The bytes of a bad line before its bad digit are taken.
    BadLineBegun,
    /// The bytes that wait are dropped at a line's end.
    DroppedAtLineEnd,
    /// With a byte that starts no packet, what follows on its line is dropped.
    RestDropped,
    /// 0xF0 is named as a break alone.
    BreakF0,
    /// A line may have a byte more than the longest.
    LongerLine,
}

/// The variants 50 to 60.
pub(super) fn wrong_with_the_receiver(number: u32) -> Option<ReceiverFault> {
    Some(match number {
        50 => ReceiverFault::Break80,
        51 => ReceiverFault::BreakF3,
        52 => ReceiverFault::ShortStatus,
        53 => ReceiverFault::ShortTime,
        54 => ReceiverFault::ShortSticks,
        55 => ReceiverFault::NoButtonKeys,
        56 => ReceiverFault::BadLineBegun,
        57 => ReceiverFault::DroppedAtLineEnd,
        58 => ReceiverFault::RestDropped,
        59 => ReceiverFault::BreakF0,
        60 => ReceiverFault::LongerLine,
        _ => return None,
    })
}

impl Rules {
    /// Whether this is what the variant does wrong.
    pub fn mishears(&self, fault: ReceiverFault) -> bool {
        self.receiver_fault == Some(fault)
    }

    /// The packet that a first byte starts: the one that the request lists.
    pub fn started(&self, first: u8, listed: Option<(Kind, usize)>) -> Option<(Kind, usize)> {
        match (self.receiver_fault, first) {
            (Some(ReceiverFault::Break80), 0x80)
            | (Some(ReceiverFault::BreakF3), 0xF3)
            | (Some(ReceiverFault::BreakF0), 0xF0) => Some((Kind::Break, 1)),
            (Some(ReceiverFault::ShortStatus), 0xF6) => Some((Kind::Status, 7)),
            (Some(ReceiverFault::ShortTime), 0xFC) => Some((Kind::Time, 6)),
            (Some(ReceiverFault::ShortSticks), 0xFD) => Some((Kind::BothSticks, 2)),
            (Some(ReceiverFault::NoButtonKeys), 0x74 | 0x75) => None,
            _ => listed,
        }
    }

    /// How many of the bytes that wait, so many in all, are done with where the
    /// first starts no packet: that one, and the listing "goes on behind it".
    pub fn left_behind(&self, waiting: usize) -> usize {
        match self.receiver_fault {
            Some(ReceiverFault::RestDropped) => waiting,
            _ => 1,
        }
    }

    /// How many bytes a line of the listing may have.
    pub fn longest_listed(&self, longest: usize) -> usize {
        longest + usize::from(self.mishears(ReceiverFault::LongerLine))
    }
}
