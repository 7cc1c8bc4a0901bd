//! The fields of a line, one after the other, each as strictly as it is written.

use crate::text::hex;

/// No number of a line has more digits.
const MOST_DIGITS: usize = 5;

/// What is left of a line, without its line feed.
pub struct Fields<'a> {
    rest: Option<&'a [u8]>,
}

impl<'a> Fields<'a> {
    pub fn of(line: &'a [u8]) -> Fields<'a> {
        Fields { rest: Some(line) }
    }

    /// The next field: up to a tab or to the end.
    pub fn text(&mut self) -> Option<&'a [u8]> {
        let rest = self.rest?;
        match rest.iter().position(|&byte| byte == b'\t') {
            Some(tab) => {
                self.rest = Some(&rest[tab + 1..]);
                Some(&rest[..tab])
            }
            None => {
                self.rest = None;
                Some(rest)
            }
        }
    }

    /// Whether no field is left.
    pub fn are_all_read(&self) -> bool {
        self.rest.is_none()
    }

    /// A number from `first` to `last`.
    pub fn between(&mut self, first: u32, last: u32) -> Option<u32> {
        let number = decimal(self.text()?)?;
        (first..=last).contains(&number).then_some(number)
    }

    pub fn at_most(&mut self, last: u32) -> Option<u32> {
        self.between(0, last)
    }

    /// A byte; 0 where it is unused.
    pub fn byte(&mut self, used: bool) -> Option<u8> {
        let last = if used { u8::MAX } else { 0 };
        Some(self.at_most(last.into())? as u8)
    }

    /// Two bytes, X before Y.
    pub fn bytes(&mut self, used: bool) -> Option<[u8; 2]> {
        Some([self.byte(used)?, self.byte(used)?])
    }

    /// "off 0, on 1"
    pub fn choice(&mut self) -> Option<bool> {
        Some(self.at_most(1)? == 1)
    }

    /// A number that goes as far as `limit` either way. 0 has no sign.
    pub fn signed(&mut self, limit: i32) -> Option<i32> {
        let number = match self.text()? {
            [b'-', b'0', ..] => return None,
            [b'-', digits @ ..] => -(decimal(digits)? as i32),
            digits => decimal(digits)? as i32,
        };
        (-limit..=limit).contains(&number).then_some(number)
    }
}

/// "decimal numbers without leading zeros"
fn decimal(digits: &[u8]) -> Option<u32> {
    match digits {
        b"0" => return Some(0),
        [] | [b'0', ..] => return None,
        _ if digits.len() > MOST_DIGITS => return None,
        _ => {}
    }
    let mut number = 0;
    for digit in digits {
        if !digit.is_ascii_digit() {
            return None;
        }
        number = 10 * number + u32::from(digit - b'0');
    }
    Some(number)
}

/// Each byte of a field in hex, two upper-case digits with nothing between; none
/// where a digit is another.
pub fn hex_bytes(field: &[u8]) -> impl Iterator<Item = Option<u8>> + '_ {
    field.chunks(2).map(hex)
}
