//! Cuts sessions in two and plays the parts one after the other, the second from
//! the line that the first saves: they must give what the whole gives.
//!
//! cut_sessions --resume PROGRAM --whole PROGRAM --seeds FIRST COUNT --lines N
//!
//! Where they do not, it prints where the session was cut and the first line that
//! differs, and ends with 1; also where too few cuts fall where much is at stake.

use std::io::Write;
use std::process::exit;

use model::cuts::{Cut, Tally};
use model::generator::session;
use model::program::Format;
use model::random::Random;

const USAGE: &str =
    "usage: cut_sessions --resume PROGRAM --whole PROGRAM --seeds FIRST COUNT --lines N";

struct Task {
    resume: String,
    whole: String,
    first: u64,
    count: u64,
    lines: usize,
}

impl Task {
    fn read(mut words: impl Iterator<Item = String>) -> Option<Task> {
        let (mut resume, mut whole, mut seeds, mut lines) = (None, None, None, None);
        while let Some(word) = words.next() {
            match word.as_str() {
                "--resume" => resume = words.next(),
                "--whole" => whole = words.next(),
                "--seeds" => {
                    seeds = Some((words.next()?.parse().ok()?, words.next()?.parse().ok()?))
                }
                "--lines" => lines = words.next()?.parse().ok(),
                _ => return None,
            }
        }
        let (first, count) = seeds?;
        Some(Task {
            resume: resume?,
            whole: whole?,
            first,
            count,
            lines: lines?,
        })
    }

    /// Cuts the session of a seed before one of its lines, or after the last.
    fn check(&self, seed: u64, tally: &mut Tally) -> Result<(), String> {
        let text = session(seed, self.lines, Format::Text);
        let lines = text.split_inclusive(|&byte| byte == b'\n');
        let place = Random::new(!seed).below(self.lines as u64 + 1) as usize;
        let cut = Cut {
            resume: &self.resume,
            whole: &self.whole,
            place,
            lines: lines.collect(),
        };
        cut.check(tally)
            .map_err(|what| format!("seed {seed}, cut after line {place}: {what}\n"))
    }
}

fn main() {
    let Some(task) = Task::read(std::env::args().skip(1)) else {
        eprintln!("{USAGE}");
        exit(2);
    };
    let mut tally = Tally::default();
    for seed in task.first..task.first + task.count {
        if let Err(report) = task.check(seed, &mut tally) {
            print(&report);
            exit(1);
        }
    }
    print(&tally.to_string());
    let lacks = tally.lacks();
    if !lacks.is_empty() {
        print(&format!("too few cuts: {}\n", lacks.join("; ")));
        exit(1);
    }
}

/// A write that fails is of no matter: the exit status tells the outcome.
fn print(text: &str) {
    let _ = std::io::stdout().write_all(text.as_bytes());
}
