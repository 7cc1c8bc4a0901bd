//! Playing lines: the text program, sessions with a buffer of their own, and a
//! session from a saved line to another.

use std::io::{self, Read, Write};

use crate::controller::{answer_number, step};
use crate::limits::{BUFFER, LONGEST_QUESTION};
use crate::question::{answer, read_into};
use crate::rules::Rules;
use crate::saved;
use crate::state::State;
use crate::text::{parse, push_line, BAD_LINE, HEADER, LONGEST_LINE};
use crate::wire::{Line, Wire};

/// The lines of one program run.
#[derive(Clone, Copy, Debug, PartialEq, Eq)]
pub enum Format {
    /// One session, as document 01 has it.
    Text,
    /// Sessions, each headed by a line `=` TAB LENGTH, with questions.
    Vectors,
}

impl Format {
    /// How many bytes of a line are worth keeping: a longer line is bad whatever
    /// it holds.
    fn longest_line(self) -> usize {
        match self {
            Format::Text => LONGEST_LINE,
            Format::Vectors => LONGEST_QUESTION + 1,
        }
    }
}

/// Plays one session, line by line.
pub struct Player {
    format: Format,
    pub state: State,
    pub lent: usize,
    number: u64,
    bytes: Vec<u8>,
}

impl Player {
    pub fn new(format: Format, rules: Rules, lent: usize) -> Player {
        Player {
            format,
            state: State::power_up(rules),
            lent,
            number: 0,
            bytes: Vec::with_capacity(BUFFER),
        }
    }

    /// Starts a new session.
    pub fn restart(&mut self, lent: usize) {
        self.state = State::power_up(self.state.rules);
        self.lent = lent;
        self.number = 0;
    }

    /// How many bytes the last line wrote, or told.
    pub fn written(&self) -> usize {
        self.bytes.len()
    }

    /// Plays a line and adds its output line to `out`. Gives the answer.
    pub fn play(&mut self, line: &[u8], out: &mut Vec<u8>) -> u8 {
        self.number += 1;
        self.bytes.clear();
        let answer = match parse(line) {
            Some(input) => answer_number(step(&mut self.state, input, self.lent, &mut self.bytes)),
            None => self.asked(line).unwrap_or(BAD_LINE),
        };
        push_line(self.number, answer, &self.bytes, out);
        answer
    }

    /// Answers a question; none if `line` is none.
    fn asked(&mut self, line: &[u8]) -> Option<u8> {
        match self.format {
            Format::Text => None,
            Format::Vectors => answer(line, &mut self.state, self.lent, &mut self.bytes),
        }
    }
}

/// The length in a line `=` TAB LENGTH: decimal, 0 to 99999, no sign.
pub fn session_head(line: &[u8]) -> Option<usize> {
    let digits = line.strip_prefix(b"=\t")?;
    if !(1..=5).contains(&digits.len()) || !digits.iter().all(u8::is_ascii_digit) {
        return None;
    }
    std::str::from_utf8(digits).ok()?.parse().ok()
}

/// Plays every line of `input`.
pub fn run(input: &mut dyn Read, output: &mut dyn Write, format: Format) -> io::Result<()> {
    run_by(Rules::from_environment(), input, output, format)
}

/// What a program prints for a whole input.
pub fn printed(mut input: &[u8], format: Format, rules: Rules) -> Vec<u8> {
    let mut output = Vec::new();
    run_by(rules, &mut input, &mut output, format).expect("a write to memory");
    output
}

fn run_by(
    rules: Rules,
    input: &mut dyn Read,
    output: &mut dyn Write,
    format: Format,
) -> io::Result<()> {
    let mut wire = Wire::new(input, output);
    let mut player = Player::new(format, rules, BUFFER);
    if format == Format::Text {
        wire.out.extend_from_slice(HEADER);
    }
    play_all(&mut player, &mut wire)?;
    wire.send()
}

/// Plays a session from a saved line on, and writes the saved line of its end.
///
/// The first line is the saved line, or `-` for power-up; the rest is a session
/// as the text program reads it. Before its answers stands line 0, the answer to
/// the first line.
pub fn resume(input: &mut dyn Read, output: &mut dyn Write) -> io::Result<()> {
    let mut wire = Wire::new(input, output);
    let mut player = Player::new(Format::Text, Rules::from_environment(), BUFFER);
    let answer = read_first_line(&mut player.state, &mut wire)?;
    wire.out.extend_from_slice(HEADER);
    push_line(0, answer, &[], &mut wire.out);
    play_all(&mut player, &mut wire)?;
    saved::write(&player.state, &mut wire.out);
    wire.send()
}

/// The line as it stands, with its line feed if it has one. What is longer than
/// any saved line is cut where it is still longer.
fn read_first_line(state: &mut State, wire: &mut Wire) -> io::Result<u8> {
    let mut first = Vec::with_capacity(saved::LONGEST + 1);
    let ended = wire.next_line(&mut first, saved::LONGEST)?;
    if first == b"-" {
        return Ok(0);
    }
    if ended == Line::Whole {
        first.push(b'\n');
    }
    Ok(read_into(&first, state))
}

fn play_all(player: &mut Player, wire: &mut Wire) -> io::Result<()> {
    let longest = player.format.longest_line();
    let mut line = Vec::with_capacity(longest);
    while wire.next_line(&mut line, longest)? != Line::None {
        match session_head(&line) {
            Some(lent) if player.format == Format::Vectors => {
                player.restart(lent);
                wire.out.extend_from_slice(&line);
                wire.out.push(b'\n');
            }
            _ => {
                player.play(&line, &mut wire.out);
            }
        }
    }
    Ok(())
}
