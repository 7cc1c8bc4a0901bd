//! Plays long moves to a program and judges the packets that they are sent in.
//!
//! long_moves --ours PROGRAM [--first laws|model]
//!
//! Every total of an axis is sent by a resume, by buttons and by motion. The packets
//! are held against the laws of the request and then against the model's text
//! program, or with `--first` in the order that is asked for. Where they differ, it
//! prints the move with what came and what should have, and ends with 1; also where
//! there was too little to judge.

use std::io::Write;
use std::process::exit;

use model::long_moves::judging::{check_all, By};

const USAGE: &str = "usage: long_moves --ours PROGRAM [--first laws|model]";

struct Task {
    ours: String,
    first: By,
}

impl Task {
    fn read(mut words: impl Iterator<Item = String>) -> Option<Task> {
        let (mut ours, mut first) = (None, By::Laws);
        while let Some(word) = words.next() {
            match word.as_str() {
                "--ours" => ours = words.next(),
                "--first" => first = read_by(&words.next()?)?,
                _ => return None,
            }
        }
        Some(Task { ours: ours?, first })
    }
}

fn read_by(word: &str) -> Option<By> {
    match word {
        "laws" => Some(By::Laws),
        "model" => Some(By::Model),
        _ => None,
    }
}

fn main() {
    let Some(task) = Task::read(std::env::args().skip(1)) else {
        eprintln!("{USAGE}");
        exit(2);
    };
    let tally = match check_all(&task.ours, task.first) {
        Ok(tally) => tally,
        Err(report) => {
            print(&format!("long moves differ: {report}"));
            exit(1);
        }
    };
    print(&tally.to_string());
    let lacks = tally.lacks();
    if !lacks.is_empty() {
        print(&format!("too little to judge: {}", lacks.join("; ")));
        exit(1);
    }
}

/// A write that fails is of no matter: the exit status tells the outcome.
fn print(text: &str) {
    let _ = writeln!(std::io::stdout(), "{text}");
}
