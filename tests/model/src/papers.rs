//! The sessions that the papers state, with the outputs that they state; and
//! sessions for sentences of document 01, for questions, for the map of keys, for
//! saved lines, for the months, for the right button with the mouse off, for long
//! moves and for looks, with outputs worked out by hand.
//!
//! Sessions are written on one line: `;` parts lines, a space stands for a tab,
//! bare hex bytes are B lines, `*n` repeats what stands before it. Nothing
//! after the last `;` is no line. Outputs are `line:bytes` for the lines that
//! wrote any and `line:(n)` for an answer n that is not 0; `1E*n+1F` is a byte n
//! times and then another. `{room}` is the queue's room, `{room+2}` two more;
//! `{shortest}` and `{longest}` are lengths of saved lines.
//! In both, a saved line stands as edits of power-up's (`edits`).

use crate::limits::{BUFFER, QUEUE_ROOM};
use crate::saved::{LONGEST, SHORTEST};
use crate::text::push_hex;

mod edits;

pub use edits::edited;

const PAPERS: &str = include_str!("papers.txt");
const SENTENCES: &str = include_str!("sentences.txt");
const QUESTIONS: &str = include_str!("questions.txt");
const KEYS: &str = include_str!("keys.txt");
const SAVED: &str = include_str!("saved.txt");
const MONTHS: &str = include_str!("months.txt");
const FIRE: &str = include_str!("fire.txt");
const MOVES: &str = include_str!("moves.txt");
const LOOKS: &str = include_str!("looks.txt");

/// A session and what each of its lines gives.
#[derive(Clone, Debug, PartialEq, Eq)]
pub struct Paper {
    pub title: String,
    pub lent: usize,
    pub lines: Vec<String>,
    pub outputs: Vec<Output>,
}

/// The answer to a line, and the bytes in hex or `-`.
#[derive(Clone, Debug, PartialEq, Eq)]
pub struct Output {
    pub answer: u8,
    pub bytes: String,
}

impl Paper {
    /// A session and its output, both in the notation of the papers.
    pub fn new(title: &str, lent: usize, session: &str, output: &str) -> Paper {
        let lines = lines(session);
        let outputs = outputs(output, lines.len());
        Paper {
            title: title.into(),
            lent,
            lines,
            outputs,
        }
    }

    /// The text of the session, each line with its line feed.
    pub fn text(&self) -> String {
        self.lines.iter().map(|line| format!("{line}\n")).collect()
    }

    /// The output as numbered lines.
    pub fn output_text(&self) -> String {
        let numbered = (1..).zip(&self.outputs);
        numbered
            .map(|(number, output)| format!("{number}\t{}\t{}\n", output.answer, output.bytes))
            .collect()
    }
}

/// Every session that the papers state for document 01, as requests amend it: first
/// its own, then those of the readings.
pub fn papers() -> Vec<Paper> {
    table(PAPERS)
}

/// Every session for a sentence of document 01, which is its title.
pub fn sentences() -> Vec<Paper> {
    table(SENTENCES)
}

/// Every session for a question.
pub fn questions() -> Vec<Paper> {
    table(QUESTIONS)
}

/// Every session for request A1: first those of the readings.
pub fn keys() -> Vec<Paper> {
    table(KEYS)
}

/// Every session for request A2: first those of the readings.
pub fn saved() -> Vec<Paper> {
    table(SAVED)
}

/// Every session for request A3.
pub fn months() -> Vec<Paper> {
    table(MONTHS)
}

/// Every session for request A4: first those of the readings.
pub fn fire() -> Vec<Paper> {
    table(FIRE)
}

/// Every session for request A6: first the reading's.
pub fn moves() -> Vec<Paper> {
    table(MOVES)
}

/// Every session for request A7: first those of the readings.
pub fn looks() -> Vec<Paper> {
    table(LOOKS)
}

fn table(text: &str) -> Vec<Paper> {
    with_lengths(text).split("\n\n").map(paper).collect()
}

/// The text with numbers in place of `{room}`, `{room+2}` and `{room-2}`.
fn with_lengths(text: &str) -> String {
    let mut parts = text.split('{');
    let mut whole = parts.next().unwrap_or_default().to_string();
    for part in parts {
        let (name, rest) = part.split_once('}').expect("a brace that closes");
        whole += &length(name).to_string();
        whole += rest;
    }
    whole
}

/// What a name stands for, with a number after it added or taken off.
fn length(name: &str) -> usize {
    let sign = name.find(['+', '-']).unwrap_or(name.len());
    let (name, more) = name.split_at(sign);
    let length = match name {
        "room" => QUEUE_ROOM,
        "shortest" => SHORTEST,
        "longest" => LONGEST,
        _ => panic!("no such length: {name}"),
    };
    match more {
        "" => length,
        more => length.saturating_add_signed(more.parse().expect("a number with its sign")),
    }
}

/// A title, perhaps a buffer's length, a session and an output, a line each.
fn paper(block: &str) -> Paper {
    let rows: Vec<&str> = block.trim_end_matches('\n').split('\n').collect();
    let (title, lent, session, output) = match rows[..] {
        [title, session, output] => (title, BUFFER, session, output),
        [title, buffer, session, output] => {
            let length = buffer.strip_prefix("buffer ").expect("a buffer's length");
            (title, length.parse().expect("a number"), session, output)
        }
        _ => panic!("not a session: {block}"),
    };
    let title = title.strip_prefix("# ").expect("a title");
    Paper::new(title, lent, session, output)
}

/// The lines of a session in the notation of the papers.
pub fn lines(session: &str) -> Vec<String> {
    let items = session.strip_suffix(';').unwrap_or(session).split(';');
    items
        .enumerate()
        .flat_map(|(index, item)| match index {
            0 => item_lines(item),
            _ => item_lines(item.strip_prefix(' ').unwrap_or(item)),
        })
        .collect()
}

fn item_lines(item: &str) -> Vec<String> {
    let (item, times) = match item.split_once(" *") {
        Some((item, times)) => (item, times.parse().expect("a number of times")),
        None => (item, 1),
    };
    let once: Vec<String> = if item.split(' ').all(is_hex_byte) {
        item.split(' ').map(|byte| format!("B\t{byte}")).collect()
    } else {
        vec![with_saved(&item.replace(' ', "\t")).replace("\\r", "\r")]
    };
    vec![once; times].concat()
}

/// The text with the hex of a saved line in place of edits in brackets.
fn with_saved(text: &str) -> String {
    let Some((before, edits)) = text.split_once('[') else {
        return text.into();
    };
    let (edits, after) = edits.split_once(']').expect("a bracket that closes");
    let mut hex = Vec::new();
    push_hex(&edited(edits), &mut hex);
    let hex = String::from_utf8(hex).expect("digits");
    [before, &hex, after].concat()
}

fn is_hex_byte(word: &str) -> bool {
    let digit = |byte| matches!(byte, b'0'..=b'9' | b'A'..=b'F');
    word.len() == 2 && word.bytes().all(digit)
}

/// What each of `count` lines gives.
fn outputs(output: &str, count: usize) -> Vec<Output> {
    let silent = Output {
        answer: 0,
        bytes: String::from("-"),
    };
    let mut outputs = vec![silent; count];
    for word in output.split(' ').filter(|&word| word != "(nothing)") {
        let (line, given) = word.split_once(':').expect("line:bytes");
        let line: usize = line.parse().expect("a line number");
        outputs[line - 1] = given_output(given);
    }
    outputs
}

fn given_output(given: &str) -> Output {
    let answer = given
        .strip_prefix('(')
        .and_then(|rest| rest.strip_suffix(')'));
    match answer {
        Some(answer) => Output {
            answer: answer.parse().expect("an answer"),
            bytes: String::from("-"),
        },
        None if given.starts_with('[') => Output {
            answer: 0,
            bytes: with_saved(given),
        },
        None => Output {
            answer: 0,
            bytes: given.split('+').map(repeated).collect(),
        },
    }
}

fn repeated(bytes: &str) -> String {
    match bytes.split_once('*') {
        Some((byte, times)) => byte.repeat(times.parse().expect("a number of times")),
        None => bytes.into(),
    }
}
