//! Holds the saved lines of a program of sessions against the model's.
//!
//! saved_lines --ours PROGRAM --states N --spoiled N --seed N
//!
//! Arbitrary states are loaded and saved; a fourth as many states that sessions
//! lead to are saved, and a tenth as many in buffers that are just long enough
//! and a byte too short; and spoiled lines are loaded. Where the two disagree,
//! it prints the line by its fields, and ends with 1; also where there was too
//! little to hold against each other.

use std::io::Write;
use std::process::exit;

use model::crosscheck::spoiled_lines::Tally;
use model::crosscheck::{arbitrary_states, reached_states, room, spoiled_lines};
use model::random::Random;

const USAGE: &str = "usage: saved_lines --ours PROGRAM --states N --spoiled N --seed N";

struct Task {
    ours: String,
    states: u64,
    spoiled: u64,
    seed: u64,
}

impl Task {
    fn read(mut words: impl Iterator<Item = String>) -> Option<Task> {
        let (mut ours, mut states, mut spoiled, mut seed) = (None, None, None, None);
        while let Some(word) = words.next() {
            match word.as_str() {
                "--ours" => ours = words.next(),
                "--states" => states = words.next()?.parse().ok(),
                "--spoiled" => spoiled = words.next()?.parse().ok(),
                "--seed" => seed = words.next()?.parse().ok(),
                _ => return None,
            }
        }
        Some(Task {
            ours: ours?,
            states: states?,
            spoiled: spoiled?,
            seed: seed?,
        })
    }

    /// How many states that sessions lead to are tried.
    fn reached(&self) -> u64 {
        self.states / 4
    }

    /// How many states are saved in buffers about their line's length.
    fn in_short_buffers(&self) -> u64 {
        self.states / 10
    }

    fn check(&self, tally: &mut Tally) -> Result<(), String> {
        let random = &mut Random::new(self.seed);
        arbitrary_states::check(&self.ours, self.states, random)?;
        reached_states::check(&self.ours, self.reached(), random)?;
        room::check(&self.ours, self.in_short_buffers(), random)?;
        spoiled_lines::check(&self.ours, self.spoiled, random, tally)
    }
}

fn main() {
    let Some(task) = Task::read(std::env::args().skip(1)) else {
        eprintln!("{USAGE}");
        exit(2);
    };
    let mut tally = Tally::default();
    if let Err(report) = task.check(&mut tally) {
        print(&format!("saved lines differ: {report}\n"));
        exit(1);
    }
    let [read, refused] = tally.totals();
    print(&format!(
        "{} states, {} reached ones and {} in short buffers agree; \
         {} spoiled lines do, {read} read and {refused} refused:\n{tally}",
        task.states,
        task.reached(),
        task.in_short_buffers(),
        read + refused,
    ));
    let lacks = tally.lacks(task.spoiled);
    if !lacks.is_empty() {
        print(&format!("too little: {}\n", lacks.join("; ")));
        exit(1);
    }
}

/// A write that fails is of no matter: the exit status tells the outcome.
fn print(text: &str) {
    let _ = std::io::stdout().write_all(text.as_bytes());
}
