//! Compares two programs on sessions made at random.
//!
//! compare --ours PROGRAM --theirs PROGRAM --seeds FIRST COUNT --lines N [--vectors]
//!
//! On a difference the session is shortened while the difference stays.

use std::io::Write;
use std::process::exit;

use model::coverage::answer_counts;
use model::crosscheck::shown;
use model::differing::{first_difference, line_of, shortest, text_of};
use model::generator::session;
use model::process::output_of;
use model::program::Format;
use model::{saved, text};

const USAGE: &str = "usage: compare --ours PROGRAM --theirs PROGRAM \
                     --seeds FIRST COUNT --lines N [--vectors]";

struct Task {
    ours: String,
    theirs: String,
    first: u64,
    count: u64,
    lines: usize,
    format: Format,
}

impl Task {
    fn read(mut words: impl Iterator<Item = String>) -> Option<Task> {
        let (mut ours, mut theirs, mut seeds, mut lines) = (None, None, None, None);
        let mut format = Format::Text;
        while let Some(word) = words.next() {
            match word.as_str() {
                "--ours" => ours = words.next(),
                "--theirs" => theirs = words.next(),
                "--seeds" => {
                    seeds = Some((words.next()?.parse().ok()?, words.next()?.parse().ok()?))
                }
                "--lines" => lines = words.next()?.parse().ok(),
                "--vectors" => format = Format::Vectors,
                _ => return None,
            }
        }
        let (first, count) = seeds?;
        Some(Task {
            ours: ours?,
            theirs: theirs?,
            first,
            count,
            lines: lines?,
            format,
        })
    }

    /// The outputs of both programs.
    fn outputs(&self, session: &[u8]) -> (Vec<u8>, Vec<u8>) {
        (
            output_of(&self.ours, session),
            output_of(&self.theirs, session),
        )
    }

    fn differs(&self, lines: &[&[u8]]) -> bool {
        let (ours, theirs) = self.outputs(&lines.concat());
        ours != theirs
    }

    /// The lines of input before the end of the first line that differs.
    fn up_to_difference<'a>(&self, lines: &[&'a [u8]], difference: usize) -> Vec<&'a [u8]> {
        let header = usize::from(self.format == Format::Text);
        let kept = (difference + 1).saturating_sub(header).min(lines.len());
        lines[..kept].to_vec()
    }

    /// The shortest session found, and both outputs where they part.
    fn report(&self, seed: u64, session: &[u8], difference: usize) -> String {
        let lines: Vec<&[u8]> = session.split_inclusive(|&byte| byte == b'\n').collect();
        let cut = self.up_to_difference(&lines, difference);
        let differs = |lines: &[&[u8]]| self.differs(lines);
        let shortest = match self.differs(&cut) {
            true => shortest(cut, usize::MAX, &differs),
            false => shortest(lines, usize::MAX, &differs),
        };
        let session = shortest.concat();
        let (ours, theirs) = self.outputs(&session);
        let place = first_difference(&ours, &theirs).unwrap_or(0);
        let (ours, theirs) = (line_of(&ours, place), line_of(&theirs, place));
        let lines: Vec<String> = shortest
            .iter()
            .map(|line| readable(&text_of(line)))
            .collect();
        format!(
            "seed {seed} differs; lines of the shortest session found: {}\n{}\n\
             output line {}:\nours:   {}\ntheirs: {}\n",
            shortest.len(),
            lines.join("\n"),
            place + 1,
            readable(&ours),
            readable(&theirs),
        )
    }
}

/// A line, and the fields of the saved line in it, if there is one.
fn readable(line: &str) -> String {
    let hex = line.rsplit('\t').next().unwrap_or_default();
    let bytes = hex.as_bytes().chunks(2).map(text::hex);
    match bytes.collect::<Option<Vec<u8>>>() {
        Some(bytes) if bytes.contains(&b'\t') && bytes.len() > saved::FIELDS => {
            format!("{line}\n        which is {}", shown(&bytes))
        }
        _ => line.into(),
    }
}

/// Adds the answers in an output, and counts its numbered lines.
fn count_answers(output: &[u8], answers: &mut [u64; 10]) -> u64 {
    let mut count = 0;
    for line in output.split(|&byte| byte == b'\n') {
        let mut fields = line.split(|&byte| byte == b'\t');
        let number = fields.next().unwrap_or_default();
        if let (true, Some([digit @ b'0'..=b'9'])) =
            (number.iter().all(u8::is_ascii_digit), fields.next())
        {
            answers[usize::from(digit - b'0')] += 1;
            count += 1;
        }
    }
    count
}

fn main() {
    let Some(task) = Task::read(std::env::args().skip(1)) else {
        eprintln!("{USAGE}");
        exit(2);
    };
    let (mut lines, mut answers) = (0, [0; 10]);
    for seed in task.first..task.first + task.count {
        let session = session(seed, task.lines, task.format);
        let (ours, theirs) = task.outputs(&session);
        if let Some(difference) = first_difference(&ours, &theirs) {
            print(&task.report(seed, &session, difference));
            exit(1);
        }
        let count = count_answers(&ours, &mut answers);
        if count == 0 && !session.is_empty() {
            eprintln!("no answers at all from {}", task.ours);
            exit(2);
        }
        lines += count;
    }
    print(&format!(
        "{lines} lines compared, no difference; answers {}\n",
        answer_counts(&answers)
    ));
}

/// A write that fails is of no matter: the exit status tells the outcome.
fn print(text: &str) {
    let _ = std::io::stdout().write_all(text.as_bytes());
}
