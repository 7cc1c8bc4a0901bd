//! The lines that a session sends, and the lines that come back.
//!
//! "tabs between fields: B hex; K hex 1/0; L or R 1/0; M dx dy; S stick position
//! trigger; F bit; T"

use std::fmt;

#[derive(Clone, Copy, Debug, PartialEq, Eq)]
pub enum Button {
    Left,
    Right,
}

/// A host byte or an event, its numbers as they are sent.
#[derive(Clone, Copy, Debug, PartialEq, Eq)]
pub enum Input {
    Host(u8),
    Key(u8, bool),
    Button(Button, bool),
    Motion(i32, i32),
    Stick(u8, u8, u8),
    Sample(u8),
    Tick,
}

impl fmt::Display for Input {
    fn fmt(&self, f: &mut fmt::Formatter<'_>) -> fmt::Result {
        match *self {
            Input::Host(byte) => write!(f, "B\t{byte:02X}"),
            Input::Key(code, down) => write!(f, "K\t{code:02X}\t{}", u8::from(down)),
            Input::Button(Button::Left, down) => write!(f, "L\t{}", u8::from(down)),
            Input::Button(Button::Right, down) => write!(f, "R\t{}", u8::from(down)),
            Input::Motion(dx, dy) => write!(f, "M\t{dx}\t{dy}"),
            Input::Stick(stick, position, trigger) => {
                write!(f, "S\t{stick}\t{position}\t{trigger}")
            }
            Input::Sample(bit) => write!(f, "F\t{bit}"),
            Input::Tick => write!(f, "T"),
        }
    }
}

/// What came back for an input.
#[derive(Clone, Debug, PartialEq, Eq)]
pub struct Reply {
    pub answer: u8,
    pub bytes: Vec<u8>,
}

/// Reads the output line of input `number`: "input line number, answer [...],
/// bytes in hex or `-`". None if it is no such line.
pub fn read_reply(line: &str, number: usize) -> Option<Reply> {
    let fields: Vec<&str> = line.split('\t').collect();
    let [first, answer, bytes] = fields[..] else {
        return None;
    };
    if first != number.to_string() || answer.len() != 1 {
        return None;
    }
    Some(Reply {
        answer: answer.parse().ok()?,
        bytes: read_bytes(bytes)?,
    })
}

fn read_bytes(field: &str) -> Option<Vec<u8>> {
    match field {
        "-" => Some(Vec::new()),
        "" => None,
        _ => field.as_bytes().chunks(2).map(read_byte).collect(),
    }
}

fn read_byte(digits: &[u8]) -> Option<u8> {
    let digits = std::str::from_utf8(digits).ok()?;
    let byte = u8::from_str_radix(digits, 16).ok()?;
    (format!("{byte:02X}") == digits).then_some(byte)
}

#[cfg(test)]
mod tests {
    use super::*;

    #[test]
    fn an_output_line_is_read_whole() {
        let reply = |answer, bytes: &[u8]| {
            let bytes = bytes.to_vec();
            Some(Reply { answer, bytes })
        };
        assert_eq!(read_reply("2\t0\tF803FE", 2), reply(0, &[0xF8, 3, 0xFE]));
        assert_eq!(read_reply("12\t3\t-", 12), reply(3, &[]));
        for line in [
            "2\t0\t",
            "2\t0\tF",
            "2\t0\tf8",
            "2\t0\t+1",
            "2\t0",
            "3\t0\t-",
            "2\t0\t-\t-",
        ] {
            assert_eq!(read_reply(line, 2), None);
        }
    }
}
