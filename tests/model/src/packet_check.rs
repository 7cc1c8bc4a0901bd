//! The packets that another program lists, held against the model's list: of
//! strings of bytes, of what the text program writes, and of good and bad lines.

use crate::differing::{first_difference, line_of, shortest};
use crate::listing::{last_field, listed};
use crate::process::output_of;
use crate::rules::Rules;

mod bytes;
pub mod inputs;
pub mod lines;
pub mod sessions;
pub mod strings;
pub mod tally;

/// How often lines, and then bytes, are left out of an input that differs. A try
/// is a run of the program.
const TRIES: usize = 300;
/// How many bytes of an input are printed from its start and from its end.
const SHOWN: usize = 300;

/// The model's list of `input`, which is also the program's; or a report.
fn check(program: &str, what: &str, input: &[u8]) -> Result<Vec<u8>, String> {
    let expected = listed(input, Rules::DOCUMENT);
    match output_of(program, input) == expected {
        true => Ok(expected),
        false => Err(report(program, what, input)),
    }
}

/// An input that is as short as it can be made, and both lists where they part.
fn report(program: &str, what: &str, input: &[u8]) -> String {
    let differs = |pieces: &[&[u8]]| {
        let input = pieces.concat();
        output_of(program, &input) != listed(&input, Rules::DOCUMENT)
    };
    let lines = input.split_inclusive(|&byte| byte == b'\n').collect();
    let mut lines = shortest(lines, TRIES, &differs);
    // The first fields of a line can only be left out together.
    for place in 0..lines.len() {
        let whole = lines[place];
        lines[place] = last_field(whole);
        if !differs(&lines) {
            lines[place] = whole;
        }
    }
    let mut short = lines.concat();
    // First digits, then pairs of them, which bytes are.
    for length in [1, 2] {
        short = shortest(short.chunks(length).collect(), TRIES, &differs).concat();
    }
    let (ours, theirs) = (output_of(program, &short), listed(&short, Rules::DOCUMENT));
    parting(what, &short, &ours, &theirs)
}

/// An input, and what a program and the model list where they part.
fn parting(what: &str, input: &[u8], ours: &[u8], theirs: &[u8]) -> String {
    let place = first_difference(ours, theirs).unwrap_or(0);
    let [ours, theirs] = [ours, theirs].map(|output| shown(line_of(output, place).as_bytes()));
    format!(
        "{what}\nthe shortest input found has {} bytes: {}\n\
         the program: {ours}\nthe model:   {theirs}",
        input.len(),
        shown(input),
    )
}

/// Bytes on one line; of many, the first and the last.
fn shown(bytes: &[u8]) -> String {
    if bytes.len() <= 2 * SHOWN {
        return bytes.escape_ascii().to_string();
    }
    let (start, end) = (&bytes[..SHOWN], &bytes[bytes.len() - SHOWN..]);
    format!("{} [...] {}", start.escape_ascii(), end.escape_ascii())
}
