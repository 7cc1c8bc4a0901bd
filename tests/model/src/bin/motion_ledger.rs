//! Plays sessions of the relative mode to a program and adds up motion and
//! packets: none may be lost or doubled.
//!
//! motion_ledger --ours PROGRAM --seeds FIRST COUNT --lines N
//!
//! Where they do not add up, it prints what came since the account was last
//! closed, and ends with 1; also where there was too little to add up.

use std::io::Write;
use std::process::exit;

use model::ledger::account::Account;
use model::ledger::lines::{read_reply, Input};
use model::ledger::scenes::session;
use model::ledger::tally::Tally;
use model::process::output_of;

const USAGE: &str = "usage: motion_ledger --ours PROGRAM --seeds FIRST COUNT --lines N";
const HEADER: &str = "line\tanswer\tbytes";
/// How many lines of a session are printed, and how much of each output line.
const MOST_LINES: usize = 60;
const MOST_OUTPUT: usize = 80;

struct Task {
    ours: String,
    first: u64,
    count: u64,
    lines: usize,
}

impl Task {
    fn read(mut words: impl Iterator<Item = String>) -> Option<Task> {
        let (mut ours, mut seeds, mut lines) = (None, None, None);
        while let Some(word) = words.next() {
            match word.as_str() {
                "--ours" => ours = words.next(),
                "--seeds" => {
                    seeds = Some((words.next()?.parse().ok()?, words.next()?.parse().ok()?))
                }
                "--lines" => lines = words.next()?.parse().ok(),
                _ => return None,
            }
        }
        let (first, count) = seeds?;
        Some(Task {
            ours: ours?,
            first,
            count,
            lines: lines?,
        })
    }

    /// Plays a session and adds it up; what is wrong, if something is.
    fn add_up(&self, seed: u64, tally: &mut Tally) -> Result<(), String> {
        let inputs = session(seed, self.lines);
        let text: String = inputs.iter().map(|input| format!("{input}\n")).collect();
        let output = output_of(&self.ours, text.as_bytes());
        let output = String::from_utf8_lossy(&output);
        let lines: Vec<&str> = output.split_terminator('\n').collect();
        check(&inputs, &lines, tally).map_err(|fault| {
            let Fault { line, closed, what } = fault;
            let part = part_of(&inputs, &lines, closed, line);
            format!("seed {seed}, line {line}: {what}\n{part}")
        })
    }
}

/// What is wrong at a line, and the line that closed the account before it.
struct Fault {
    line: usize,
    closed: usize,
    what: String,
}

/// Enters every input with its line of the output, which has a header before.
fn check(inputs: &[Input], output: &[&str], tally: &mut Tally) -> Result<(), Fault> {
    let mut account = Account::open(tally);
    enter_all(&mut account, inputs, output).map_err(|what| Fault {
        line: account.entered,
        closed: account.closed,
        what,
    })
}

fn enter_all(account: &mut Account, inputs: &[Input], output: &[&str]) -> Result<(), String> {
    if output.first() != Some(&HEADER) {
        return Err("the output has no header".into());
    }
    for (number, &input) in (1..).zip(inputs) {
        let line = output.get(number).unwrap_or(&"");
        let reply = read_reply(line, number);
        account.enter(input, &reply.ok_or("no answer to the next line")?)?;
    }
    if output.len() != inputs.len() + 1 {
        return Err("the output goes on after the last line".into());
    }
    if account.closed != inputs.len() {
        return Err("the session does not end in a closing".into());
    }
    Ok(())
}

/// The lines after a closing up to a line, each with what came back.
fn part_of(inputs: &[Input], output: &[&str], closed: usize, line: usize) -> String {
    let first = closed.max(line.saturating_sub(MOST_LINES));
    let mut part = format!("lines since the account was closed: {}", line - closed);
    if first > closed {
        part += &format!(", the last {MOST_LINES} of them:");
    }
    for number in first + 1..=line {
        let reply = output.get(number).unwrap_or(&"(no such line)");
        let shown: String = reply.chars().take(MOST_OUTPUT).collect();
        let rest = if shown.len() < reply.len() { "..." } else { "" };
        part += &format!("\n{}\t-> {shown}{rest}", inputs[number - 1]);
    }
    part
}

fn main() {
    let Some(task) = Task::read(std::env::args().skip(1)) else {
        eprintln!("{USAGE}");
        exit(2);
    };
    let mut tally = Tally::default();
    for seed in task.first..task.first + task.count {
        if let Err(report) = task.add_up(seed, &mut tally) {
            print(&report);
            exit(1);
        }
    }
    print(&tally.to_string());
    let lacks = tally.lacks();
    if !lacks.is_empty() {
        print(&format!("too little to add up: {}", lacks.join("; ")));
        exit(1);
    }
}

/// A write that fails is of no matter: the exit status tells the outcome.
fn print(text: &str) {
    let _ = writeln!(std::io::stdout(), "{text}");
}
