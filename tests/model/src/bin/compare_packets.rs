//! Holds the packets that a program lists against the model's list.
//!
//! compare_packets --packets PROGRAM --ikbd PROGRAM --seed N --strings N --bytes N
//!                 [--part lines|sessions|strings]
//!
//! It lists good and bad lines in long inputs, at least as many as strings; so many
//! bytes that the text program writes in sessions made at random; and strings of at
//! most 12 bytes, each in a run of its own: every first byte with every length, the
//! empty input, and so many made at random. With `--part` it does one of the three.
//! Where the two differ, it prints an input as short as it can make it, and ends
//! with 1; also where there was too little of something.

use std::io::Write;
use std::process::exit;

use model::packet_check::lines::{self, Lines};
use model::packet_check::sessions::{self, Programs, Tallies};
use model::packet_check::strings;
use model::packet_check::tally::{Tally, BAD_LINE, NO_PACKET, TOO_FEW};

const USAGE: &str = "usage: compare_packets --packets PROGRAM --ikbd PROGRAM \
                     --seed N --strings N --bytes N [--part lines|sessions|strings]";

struct Task {
    packets: String,
    ikbd: String,
    seed: u64,
    strings: u64,
    bytes: u64,
    /// None for all.
    part: Option<Part>,
}

#[derive(Clone, Copy, PartialEq, Eq)]
enum Part {
    Lines,
    Sessions,
    Strings,
}

/// What was met; nothing in a part that was not asked for.
#[derive(Default)]
struct Met {
    lines: Lines,
    sessions: Tallies,
    strings: Tally,
}

impl Task {
    fn read(mut words: impl Iterator<Item = String>) -> Option<Task> {
        let (mut packets, mut ikbd) = (None, None);
        let (mut seed, mut strings, mut bytes) = (None, None, None);
        let mut part = None;
        while let Some(word) = words.next() {
            match word.as_str() {
                "--packets" => packets = words.next(),
                "--ikbd" => ikbd = words.next(),
                "--seed" => seed = words.next()?.parse().ok(),
                "--strings" => strings = words.next()?.parse().ok(),
                "--bytes" => bytes = words.next()?.parse().ok(),
                "--part" => part = Some(Part::read(&words.next()?)?),
                _ => return None,
            }
        }
        Some(Task {
            packets: packets?,
            ikbd: ikbd?,
            seed: seed?,
            strings: strings?,
            bytes: bytes?,
            part,
        })
    }

    fn has(&self, part: Part) -> bool {
        self.part.is_none_or(|only| only == part)
    }

    /// The strings come last: a run for each takes the most time.
    fn check(&self) -> Result<Met, String> {
        let (packets, ikbd) = (&self.packets, &self.ikbd);
        let programs = Programs { packets, ikbd };
        let mut met = Met::default();
        if self.has(Part::Lines) {
            met.lines = lines::check_all(packets, self.seed, self.strings)?;
        }
        if self.has(Part::Sessions) {
            met.sessions = sessions::check_all(&programs, self.seed, self.bytes)?;
        }
        if self.has(Part::Strings) {
            met.strings = strings::check_all(packets, self.seed, self.strings)?;
        }
        Ok(met)
    }

    /// What there was too little of.
    fn lacks(&self, met: &Met) -> Vec<String> {
        let mut lacks = Vec::new();
        if self.has(Part::Lines) {
            lacks.extend(met.lines.tally.lacks(self.strings / 1_000, &[TOO_FEW]));
            lacks.extend(met.lines.lacks(self.strings / 10_000));
        }
        if self.has(Part::Sessions) {
            let Tallies { any, unmonitored } = &met.sessions;
            let least = self.bytes / 10_000;
            lacks.extend(any.lacks(least, &[TOO_FEW, BAD_LINE]));
            // Sessions that never monitor have but packets.
            lacks.extend(unmonitored.lacks(least, &[NO_PACKET, TOO_FEW, BAD_LINE]));
        }
        if self.has(Part::Strings) {
            lacks.extend(met.strings.lacks(self.strings / 50, &[BAD_LINE]));
        }
        lacks
    }
}

impl Part {
    fn read(word: &str) -> Option<Part> {
        match word {
            "lines" => Some(Part::Lines),
            "sessions" => Some(Part::Sessions),
            "strings" => Some(Part::Strings),
            _ => None,
        }
    }
}

fn main() {
    let Some(task) = Task::read(std::env::args().skip(1)) else {
        eprintln!("{USAGE}");
        exit(2);
    };
    let met = match task.check() {
        Ok(met) => met,
        Err(report) => {
            print(&format!("packets differ: {report}\n"));
            exit(1);
        }
    };
    print(&format!(
        "{} runs of one string each, {} bytes of output and {} lines agree\n\
         strings: {}\noutput of any session: {} sessions, {}\n\
         output without 17 and 18: {}\nlines: {}\n",
        met.strings.inputs,
        met.sessions.bytes(),
        met.lines.count,
        met.strings,
        met.sessions.any.inputs,
        met.sessions.any,
        met.sessions.unmonitored,
        met.lines,
    ));
    let lacks = task.lacks(&met);
    if !lacks.is_empty() {
        print(&format!("too little: {}\n", lacks.join("; ")));
        exit(1);
    }
}

/// A write that fails is of no matter: the exit status tells the outcome.
fn print(text: &str) {
    let _ = std::io::stdout().write_all(text.as_bytes());
}
