//! "The host's side of the wire": request A5, which tells the first packet of
//! received bytes by its first byte and knows nothing of the controller.

use crate::rules::Rules;

/// What a packet is.
#[derive(Clone, Copy, Debug, PartialEq, Eq)]
pub enum Kind {
    Make,
    Break,
    /// "0xF0 is named as both its meanings": what a reset sends first, and the
    /// break of key 0x70.
    VersionOrBreak70,
    Status,
    MousePosition,
    MouseMotion,
    Time,
    BothSticks,
    StickEvent,
}

/// Every kind, with its name.
pub const KINDS: [(Kind, &str); 9] = [
    (Kind::Make, "make"),
    (Kind::Break, "break"),
    (Kind::VersionOrBreak70, "version or break 70"),
    (Kind::Status, "status"),
    (Kind::MousePosition, "mouse position"),
    (Kind::MouseMotion, "mouse motion"),
    (Kind::Time, "time"),
    (Kind::BothSticks, "both sticks"),
    (Kind::StickEvent, "stick event"),
];

impl Kind {
    pub fn name(self) -> &'static str {
        KINDS[self as usize].1
    }
}

/// What received bytes begin with.
#[derive(Clone, Copy, Debug, PartialEq, Eq)]
pub enum First {
    /// A whole packet, and its length.
    Packet(Kind, usize),
    /// "Too few bytes says so and takes none." "Empty input is too few."
    TooFew,
    /// "exactly when the first byte starts no packet"
    NoPacket,
}

impl First {
    /// How many bytes are taken. "Too few" takes none, and neither does 6.
    pub fn length(self) -> usize {
        match self {
            First::Packet(_, length) => length,
            First::TooFew | First::NoPacket => 0,
        }
    }

    /// "Refusals: 6"
    pub fn refusal(self) -> Option<u8> {
        (self == First::NoPacket).then_some(6)
    }
}

/// "Given received bytes, tell the first packet's kind and length".
pub fn first(bytes: &[u8], rules: &Rules) -> First {
    let Some(&byte) = bytes.first() else {
        return First::TooFew;
    };
    match rules.started(byte, started(byte)) {
        None => First::NoPacket,
        Some((_, length)) if length > bytes.len() => First::TooFew,
        Some((kind, length)) => First::Packet(kind, length),
    }
}

/// The packet that a first byte starts, and its length; none for "00, 73, 76 to
/// 80, F3 and nothing else" (reading 90).
fn started(first: u8) -> Option<(Kind, usize)> {
    Some(match first {
        // "1 to 0x72, 0x74, 0x75, the breaks of all these, 1"
        0x01..=0x72 | 0x74 | 0x75 => (Kind::Make, 1),
        0xF0 => (Kind::VersionOrBreak70, 1),
        0x81..=0xF2 | 0xF4 | 0xF5 => (Kind::Break, 1),
        // "0xF6 8, 0xF7 6, 0xF8 to 0xFB 3, 0xFC 7, 0xFD 3, 0xFE and 0xFF 2"
        0xF6 => (Kind::Status, 8),
        0xF7 => (Kind::MousePosition, 6),
        0xF8..=0xFB => (Kind::MouseMotion, 3),
        0xFC => (Kind::Time, 7),
        0xFD => (Kind::BothSticks, 3),
        0xFE | 0xFF => (Kind::StickEvent, 2),
        0x00 | 0x73 | 0x76..=0x80 | 0xF3 => return None,
    })
}

#[cfg(test)]
mod tests {
    use super::*;

    #[test]
    fn every_kind_of_packet_has_its_name() {
        for (place, (kind, _)) in KINDS.iter().enumerate() {
            assert_eq!(*kind as usize, place);
        }
    }
}
