//! Bytes cut into packets, and what the mouse packets among them say.
//!
//! A byte that a monitoring mode reports may be 0xF8, so its reports are never
//! cut; which bytes they are, the settings tell. None of them are queued:
//! "Paused: ticks move only the clock, samples are dropped." So all other bytes
//! are packets, one after the other, and each is told by its first byte.

/// What an input that is taken can write.
#[derive(Clone, Copy, Debug, PartialEq, Eq)]
pub enum Due {
    Nothing,
    /// Nothing, or this many bytes, which are no packet.
    Report(usize),
    /// Any number of packets.
    Packets,
}

/// What mouse packets say together, and how many they are.
#[derive(Clone, Copy, Debug, Default, PartialEq, Eq)]
pub struct Said {
    pub motion: [i32; 2],
    pub packets: u64,
    /// How many bytes of a report are like a mouse packet's first.
    pub no_packets: u64,
}

/// What is said by the bytes that came back where `due` could, or what is wrong
/// with them.
pub fn said(due: Due, bytes: &[u8]) -> Result<Said, String> {
    let count = bytes.len();
    match due {
        Due::Packets => cut(bytes),
        _ if count == 0 => Ok(Said::default()),
        Due::Report(length) if count == length => Ok(Said {
            no_packets: bytes.iter().filter(|&&byte| is_mouse(byte)).count() as u64,
            ..Said::default()
        }),
        Due::Report(length) => Err(format!(
            "{count} bytes are written where a report has {length}"
        )),
        Due::Nothing => Err(format!("{count} bytes are written where nothing is sent")),
    }
}

/// "One packet is 0xF8 + 2·left + right, X, Y in two's complement."
fn is_mouse(first: u8) -> bool {
    (0xF8..=0xFB).contains(&first)
}

/// How long a packet is that begins with `first`; none if no packet does.
fn length(first: u8) -> Option<usize> {
    match first {
        // Key codes "1 to 0x72"; "keys 0x74 left, 0x75 right"; "a break is the
        // make plus 0x80". So 0xF0 is the break of 0x70: no session has a reset.
        0x01..=0x72 | 0x74 | 0x75 | 0x81..=0xF2 | 0xF4 | 0xF5 => Some(1),
        0xF6 => Some(8), // "0xF6, then the command [...], filled with zeros to 8 bytes"
        0xF8..=0xFB => Some(3), // the mouse's
        0xFC => Some(7), // "0x1C sends 0xFC and six bytes."
        0xFD => Some(3), // "0x16 sends 0xFD and both."
        0xFE | 0xFF => Some(2), // "0xFE or 0xFF and the byte"
        // No key is 0x00, 0x73 or above 0x75, and 0x80 and 0xF3 would be breaks of
        // such. 0xF7 is sent in absolute mode alone.
        0x00 | 0x73 | 0x76..=0x80 | 0xF3 | 0xF7 => None,
    }
}

fn cut(mut bytes: &[u8]) -> Result<Said, String> {
    let mut said = Said::default();
    while let Some(&first) = bytes.first() {
        let length = length(first).ok_or_else(|| format!("no packet begins with {first:02X}"))?;
        let (packet, rest) = bytes
            .split_at_checked(length)
            .ok_or("a packet is cut off")?;
        if is_mouse(first) {
            said.motion[0] += i32::from(packet[1] as i8);
            said.motion[1] += i32::from(packet[2] as i8);
            said.packets += 1;
        }
        bytes = rest;
    }
    Ok(said)
}

#[cfg(test)]
mod tests {
    use super::*;

    #[test]
    fn headers_within_packets_are_no_headers() {
        let bytes = [
            0xF2, 0xFD, 0x8F, 0x0F, 0xFA, 0xF8, 0x80, 0xF6, 0x0B, 0xF8, 0xF9, 0, 0, 0, 0, 0xF8,
            0x7F, 1,
        ];
        let said = cut(&bytes).unwrap();
        assert_eq!((said.motion, said.packets), ([-8 + 127, -128 + 1], 2));
    }

    #[test]
    fn a_packet_that_is_cut_off_is_a_fault() {
        assert!(cut(&[0x1E, 0xF8, 0x01]).is_err());
        assert!(cut(&[0xFC, 0, 1, 1, 0, 0]).is_err());
    }

    #[test]
    fn a_byte_that_begins_no_packet_is_a_fault() {
        for first in [0x00, 0x73, 0x76, 0x7F, 0x80, 0xF3, 0xF7] {
            assert!(cut(&[first, 0, 0, 0, 0, 0]).is_err());
        }
        assert!(cut(&[0x01, 0x72, 0x74, 0x75, 0x81, 0xF0, 0xF2, 0xF4, 0xF5]).is_ok());
    }

    #[test]
    fn a_report_is_not_cut() {
        let no_packet = Said {
            no_packets: 1,
            ..Said::default()
        };
        assert_eq!(said(Due::Report(2), &[0x00, 0xF8]), Ok(no_packet));
        assert_eq!(said(Due::Report(1), &[0xF8]), Ok(no_packet));
        assert_eq!(said(Due::Report(2), &[]), Ok(Said::default()));
        assert!(said(Due::Report(2), &[0xF8, 5, 5]).is_err());
        assert!(said(Due::Nothing, &[0xF8, 5, 5]).is_err());
    }
}
