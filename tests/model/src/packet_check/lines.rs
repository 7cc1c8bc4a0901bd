//! Good and bad lines, listed.

use std::fmt;

use super::check;
use super::inputs::input;
use super::tally::Tally;
use crate::listing::{bytes_of, LONGEST_LINE};
use crate::random::Random;
use crate::text::HEADER;

/// What lines an input had.
const SORTS: [&str; 7] = [
    "of 32,767 bytes that are good",
    "of 32,768 bytes",
    "of more bytes",
    "with a NUL byte",
    "with a carriage return",
    "that are headers",
    "last without a line feed",
];

/// The counts of lines, and what was listed for them.
#[derive(Default)]
pub struct Lines {
    pub count: u64,
    pub tally: Tally,
    sorts: [u64; SORTS.len()],
}

/// Tries inputs until so many lines have come.
pub fn check_all(program: &str, seed: u64, count: u64) -> Result<Lines, String> {
    let random = &mut Random::new(seed);
    let mut lines = Lines::default();
    while lines.count < count {
        let input = input(random);
        lines.tally.saw(&check(program, "lines", &input)?);
        lines.saw(&input);
    }
    Ok(lines)
}

impl Lines {
    fn saw(&mut self, input: &[u8]) {
        for line in input.split_inclusive(|&byte| byte == b'\n') {
            let (text, ended) = match line.strip_suffix(b"\n") {
                Some(text) => (text, true),
                None => (line, false),
            };
            let length = text.len();
            let met = [
                length == LONGEST_LINE && bytes_of(text).is_some(),
                length == LONGEST_LINE + 1,
                length > LONGEST_LINE + 1,
                text.contains(&0),
                text.contains(&b'\r'),
                text == HEADER.trim_ascii_end(),
                !ended,
            ];
            self.count += 1;
            for (count, met) in self.sorts.iter_mut().zip(met) {
                *count += u64::from(met);
            }
        }
    }

    /// Of what there were fewer than `least` lines.
    pub fn lacks(&self, least: u64) -> Vec<String> {
        let sorts = SORTS.iter().zip(self.sorts);
        sorts
            .filter(|(_, count)| *count < least)
            .map(|(sort, count)| format!("{count} lines {sort}, fewer than {least}"))
            .collect()
    }
}

impl fmt::Display for Lines {
    fn fmt(&self, f: &mut fmt::Formatter<'_>) -> fmt::Result {
        let sorts = SORTS.iter().zip(self.sorts);
        let words: Vec<String> = sorts
            .map(|(sort, count)| format!("{count} {sort}"))
            .collect();
        write!(
            f,
            "{} inputs, {}, lines {}",
            self.tally.inputs,
            self.tally,
            words.join(", ")
        )
    }
}
