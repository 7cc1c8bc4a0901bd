//! A session that is cut in two: the second part goes on from the line that the
//! first saves.

use std::fmt;

use crate::process::output_of;
use crate::rules::Rules;
use crate::saved;
use crate::state::State;

const HEADER: &str = "line\tanswer\tbytes";
/// The answer to a first line that was read.
const READ: &str = "0\t0\t-";

/// A session, where it is cut, and the programs that play it.
pub struct Cut<'a> {
    pub resume: &'a str,
    pub whole: &'a str,
    pub lines: Vec<&'a [u8]>,
    /// How many lines stand before the cut.
    pub place: usize,
}

/// What a program gave for a session that goes on from a saved line.
struct Resumed {
    /// The answers to its lines.
    answers: Vec<String>,
    /// The saved line of its end, with its line feed.
    saved: Vec<u8>,
}

impl Cut<'_> {
    /// What is wrong, if something is.
    pub fn check(&self, tally: &mut Tally) -> Result<(), String> {
        let (before, after) = self.lines.split_at(self.place);
        let first = self.resumed(b"-\n", before)?;
        let second = self.resumed(&first.saved, after)?;
        let uncut = self.resumed(b"-\n", &self.lines)?;
        let whole = self.whole_answers()?;
        let moved = second.answers.iter().map(|line| moved_on(line, self.place));
        let joined: Vec<String> = first.answers.iter().cloned().chain(moved).collect();
        same("in two parts and as a whole", &joined, &whole)?;
        same("as a whole and from `-` on", &whole, &uncut.answers)?;
        if second.saved != uncut.saved {
            return Err(format!(
                "another state in the end\nin two parts: {}as a whole:   {}",
                String::from_utf8_lossy(&second.saved),
                String::from_utf8_lossy(&uncut.saved)
            ));
        }
        let state = saved::read(&first.saved, Rules::DOCUMENT);
        tally.saw(&state.ok_or("the first part saves a line that no state writes")?);
        Ok(())
    }

    /// A part of the session from a saved line on.
    fn resumed(&self, saved: &[u8], lines: &[&[u8]]) -> Result<Resumed, String> {
        let input = [saved, &lines.concat()].concat();
        let output = output_of(self.resume, &input);
        let mut lines: Vec<&[u8]> = output.split_inclusive(|&byte| byte == b'\n').collect();
        let saved = lines.pop().ok_or("no output")?.to_vec();
        let mut answers: Vec<String> = lines.into_iter().map(text_of).collect();
        let rest = answers.split_off(answers.len().min(2));
        if answers != [HEADER, READ] {
            return Err(format!("begins with {answers:?}"));
        }
        Ok(Resumed {
            answers: rest,
            saved,
        })
    }

    fn whole_answers(&self) -> Result<Vec<String>, String> {
        let output = output_of(self.whole, &self.lines.concat());
        let lines = output.split_inclusive(|&byte| byte == b'\n');
        let mut answers: Vec<String> = lines.map(text_of).collect();
        if answers.first().map(String::as_str) != Some(HEADER) {
            return Err(String::from("the whole begins without a header"));
        }
        Ok(answers.split_off(1))
    }
}

fn text_of(line: &[u8]) -> String {
    let line = line.strip_suffix(b"\n").unwrap_or(line);
    String::from_utf8_lossy(line).into()
}

/// An output line with the number that it has after so many others.
fn moved_on(line: &str, before: usize) -> String {
    let (number, rest) = line.split_once('\t').unwrap_or((line, ""));
    match number.parse::<usize>() {
        Ok(number) => format!("{}\t{rest}", number + before),
        Err(_) => line.into(),
    }
}

fn same(how: &str, one: &[String], other: &[String]) -> Result<(), String> {
    if one == other {
        return Ok(());
    }
    let differ = one.iter().zip(other).position(|(one, other)| one != other);
    let place = differ.unwrap_or(one.len().min(other.len()));
    let none = String::from("(no such line)");
    Err(format!(
        "{how} it differs\n{}\n{}",
        one.get(place).unwrap_or(&none),
        other.get(place).unwrap_or(&none)
    ))
}

/// Where cuts fell, and the least number of each.
const COUNTS: [(&str, u64); 7] = [
    ("sessions cut", 100),
    ("within a command", 10),
    ("paused", 10),
    ("with a queue", 5),
    ("with motion held", 5),
    ("monitoring", 5),
    ("with keys down", 20),
];

#[derive(Default)]
pub struct Tally {
    counts: [u64; COUNTS.len()],
}

impl Tally {
    /// A session was cut in this state.
    fn saw(&mut self, state: &State) {
        let met = [
            true,
            state.command.is_half_received(),
            state.paused,
            !state.queue.bytes().is_empty(),
            state.mouse.held != [0, 0],
            state.joysticks.is_monitoring(),
            state.keys.count() > 0,
        ];
        for (count, met) in self.counts.iter_mut().zip(met) {
            *count += u64::from(met);
        }
    }

    /// What there was too little of.
    pub fn lacks(&self) -> Vec<String> {
        let counts = COUNTS.iter().zip(self.counts);
        counts
            .filter(|((_, least), count)| count < least)
            .map(|((words, least), count)| format!("{count} {words}, fewer than {least}"))
            .collect()
    }
}

impl fmt::Display for Tally {
    fn fmt(&self, f: &mut fmt::Formatter<'_>) -> fmt::Result {
        let counts = COUNTS.iter().zip(self.counts);
        let words: Vec<String> = counts
            .map(|((words, _), count)| format!("{count} {words}"))
            .collect();
        writeln!(f, "{}, and every one goes on", words.join(", "))
    }
}
