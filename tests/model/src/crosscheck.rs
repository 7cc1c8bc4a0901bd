//! Saved lines of another program held against the model's, in four ways:
//! arbitrary states, states that sessions lead to, buffers about the length of
//! the line, and spoiled lines.

use crate::process::output_of;
use crate::program::{Format, Player};
use crate::rules::Rules;
use crate::saved;
use crate::spoil::line_of;
use crate::state::State;
use crate::text::{hex, push_hex};

pub mod arbitrary_states;
pub mod reached_states;
pub mod room;
pub mod spoiled_lines;

/// How many lines are saved, loaded or both in one run of the program.
const BATCH: u64 = 5_000;

/// Sessions for a program, played by the model too.
struct Batch {
    text: Vec<u8>,
    player: Player,
    /// The model's answer to each line, and its state after it.
    expected: Vec<(u8, State)>,
}

/// The answer to a line, and its bytes.
#[derive(Clone, Debug, PartialEq, Eq)]
struct Reply {
    answer: u8,
    bytes: Vec<u8>,
}

impl Batch {
    /// Starts with a session that is lent a buffer of this length.
    fn new(lent: usize) -> Batch {
        let mut batch = Batch {
            text: Vec::new(),
            player: Player::new(Format::Vectors, Rules::DOCUMENT, lent),
            expected: Vec::new(),
        };
        batch.head(lent);
        batch
    }

    /// Starts another session.
    fn head(&mut self, lent: usize) {
        self.text.extend(format!("=\t{lent}\n").bytes());
        self.player.restart(lent);
    }

    fn line(&mut self, line: &[u8]) {
        self.text.extend_from_slice(line);
        self.text.push(b'\n');
        let answer = self.player.play(line, &mut Vec::new());
        self.expected.push((answer, self.player.state));
    }

    fn load(&mut self, saved: &[u8]) {
        let mut line = b"?\tload\t".to_vec();
        match saved {
            [] => line.push(b'-'),
            saved => push_hex(saved, &mut line),
        }
        self.line(&line);
    }

    fn save(&mut self) {
        self.line(b"?\tsave");
    }

    /// What a program replies to each line.
    fn replies(&self, program: &str) -> Result<Vec<Reply>, String> {
        let output = output_of(program, &self.text);
        let lines = output.split(|&byte| byte == b'\n');
        let replies: Vec<Reply> = lines
            .filter(|line| !line.is_empty() && !line.starts_with(b"="))
            .map(|line| reply(line).ok_or_else(|| format!("not a reply: {}", shown(line))))
            .collect::<Result<_, _>>()?;
        match replies.len() == self.expected.len() {
            true => Ok(replies),
            false => Err(format!(
                "{} replies to {} lines",
                replies.len(),
                self.expected.len()
            )),
        }
    }
}

/// A line of output: number, answer, and bytes in hex or `-`.
fn reply(line: &[u8]) -> Option<Reply> {
    let mut fields = line.split(|&byte| byte == b'\t');
    let (_number, answer, bytes) = (fields.next()?, fields.next()?, fields.next()?);
    let [answer @ b'0'..=b'9'] = answer else {
        return None;
    };
    let bytes = match bytes {
        b"-" => Vec::new(),
        bytes => bytes.chunks(2).map(hex).collect::<Option<_>>()?,
    };
    fields.next().is_none().then_some(Reply {
        answer: answer - b'0',
        bytes,
    })
}

/// What is wrong with a line that a program saved in this state, if anything is:
/// the model must read it, and as this state.
fn check_saved(reply: &Reply, state: &State) -> Result<(), String> {
    if reply.answer != 0 {
        return Err(format!("not saved but refused with {}", reply.answer));
    }
    match saved::read(&reply.bytes, Rules::DOCUMENT) {
        None => Err(String::from("saved a line that no state writes")),
        Some(read) if read != *state => Err(String::from("saved another state")),
        Some(_) => Ok(()),
    }
}

/// A line as its fields, each with its number; or as bytes, if it has not as many.
pub fn shown(line: &[u8]) -> String {
    let fields: Vec<&[u8]> = line.split(|&byte| byte == b'\t').collect();
    if fields.len() != saved::FIELDS {
        return format!("{} bytes: {}", line.len(), line.escape_ascii());
    }
    let numbered = (1..).zip(fields);
    let fields: Vec<String> = numbered
        .map(|(number, field)| format!("{number}={}", field.escape_ascii()))
        .collect();
    fields.join(" ")
}

/// A line that was saved beside the model's, and the fields in which they differ.
fn beside(state: &State, saved: &[u8]) -> String {
    let line = line_of(state);
    let parts = |line: &[u8]| -> Vec<Vec<u8>> {
        let fields = line.split(|&byte| byte == b'\t');
        fields.map(<[u8]>::to_vec).collect()
    };
    let pairs = parts(&line).into_iter().zip(parts(saved));
    let differing: Vec<String> = (1..)
        .zip(pairs)
        .filter(|(_, (ours, theirs))| ours != theirs)
        .map(|(number, _)| number.to_string())
        .collect();
    format!(
        "the model's: {}\nsaved:       {}\nfields that differ: {}",
        shown(&line),
        shown(saved),
        differing.join(" ")
    )
}
