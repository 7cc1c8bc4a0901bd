//! "The text program": the lines that go in and the lines that come out.

use crate::controller::Input;
use crate::mouse::Button;

/// The first line of the output.
pub const HEADER: &[u8] = b"line\tanswer\tbytes\n";
/// "9 for a bad line"
pub const BAD_LINE: u8 = 9;
/// More bytes than any good line has: a longer line is bad whatever it holds.
pub const LONGEST_LINE: usize = 32;

/// Reads a line without its line feed; none if it is bad.
///
/// "tabs between fields: B hex; K hex 1/0; L or R 1/0; M dx dy; S stick
/// position trigger; F bit; T"
pub fn parse(line: &[u8]) -> Option<Input> {
    let mut fields = line.split(|&byte| byte == b'\t');
    let input = match fields.next()? {
        b"B" => Input::Host(hex(fields.next()?)?),
        b"K" => Input::Key {
            code: hex(fields.next()?)?,
            down: level(fields.next()?)?,
        },
        b"L" => Input::Button {
            button: Button::Left,
            down: level(fields.next()?)?,
        },
        b"R" => Input::Button {
            button: Button::Right,
            down: level(fields.next()?)?,
        },
        b"M" => Input::Motion {
            dx: number(fields.next()?)?,
            dy: number(fields.next()?)?,
        },
        b"S" => Input::Stick {
            stick: number(fields.next()?)?,
            position: number(fields.next()?)?,
            trigger: number(fields.next()?)?,
        },
        b"F" => Input::Sample(number(fields.next()?)?),
        b"T" => Input::Tick,
        _ => return None,
    };
    fields.next().is_none().then_some(input)
}

/// "Hex is two upper-case digits"
pub fn hex(field: &[u8]) -> Option<u8> {
    let [high, low] = field else { return None };
    Some(16 * hex_digit(*high)? + hex_digit(*low)?)
}

fn hex_digit(byte: u8) -> Option<u8> {
    match byte {
        b'0'..=b'9' => Some(byte - b'0'),
        b'A'..=b'F' => Some(byte - b'A' + 10),
        _ => None,
    }
}

/// "other numbers an optional minus and 1 to 4 decimal digits"
fn number(field: &[u8]) -> Option<i32> {
    let (sign, digits) = match field {
        [b'-', digits @ ..] => (-1, digits),
        digits => (1, digits),
    };
    if !(1..=4).contains(&digits.len()) || !digits.iter().all(u8::is_ascii_digit) {
        return None;
    }
    let value = digits
        .iter()
        .fold(0, |value, digit| 10 * value + i32::from(digit - b'0'));
    Some(sign * value)
}

/// "the last field of K, L and R is 0 or 1"
fn level(field: &[u8]) -> Option<bool> {
    match field {
        b"0" => Some(false),
        b"1" => Some(true),
        _ => None,
    }
}

/// Adds a line to `out`: "input line number, answer, bytes in hex or `-`".
pub fn push_line(number: u64, answer: u8, bytes: &[u8], out: &mut Vec<u8>) {
    push_decimal(number, out);
    out.extend_from_slice(&[b'\t', b'0' + answer, b'\t']);
    if bytes.is_empty() {
        out.push(b'-');
    }
    push_hex(bytes, out);
    out.push(b'\n');
}

/// Adds a number without leading zeros.
#[inline(always)]
pub fn push_decimal(mut number: u64, out: &mut Vec<u8>) {
    let mut digits = [0; 20];
    let mut start = digits.len();
    loop {
        start -= 1;
        digits[start] = b'0' + (number % 10) as u8;
        number /= 10;
        if number == 0 {
            break;
        }
    }
    out.extend_from_slice(&digits[start..]);
}

/// Adds `bytes` in hex, two upper-case digits each.
pub fn push_hex(bytes: &[u8], out: &mut Vec<u8>) {
    const DIGITS: &[u8; 16] = b"0123456789ABCDEF";
    for &byte in bytes {
        out.push(DIGITS[usize::from(byte >> 4)]);
        out.push(DIGITS[usize::from(byte & 15)]);
    }
}
