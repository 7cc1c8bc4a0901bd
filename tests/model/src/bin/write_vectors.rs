//! write_vectors DIRECTORY LIST
//!
//! Writes the files `stdin` and `stdout` into a directory, and a list of their
//! sessions. Ends with 1 if the model's output is not the one that is stated.

use std::fmt::Write;
use std::fs;
use std::path::PathBuf;
use std::process::exit;

use model::vectors::{groups, played, Group};

const OPENING: &str = "\
# Sessions and their expected outputs

`crates/vectors/stdin` holds sessions one after the other. A line `=`, a tab and
a number starts a session from power-up; the number is the length of the buffer
lent with every input of the session. Every other line is an input line as the
text program reads it, or a question. `crates/vectors/stdout` is what is
expected: the `=` lines as they stand, and for every other line its number within
the session, the answer (9 for a bad line) and the bytes in hex or `-`. Both, and
this list, are written by `write_vectors` of `tests/model`; the gate writes them
anew and looks that they are the same.

A question is a line `?`, a tab and a word. It is no input: nothing changes, the
lent buffer does not matter, and its answer is 0. `queue` asks for the bytes that
wait in the queue, oldest first; `lamp` asks how many keys are held, one byte.
Four questions are answered otherwise. `save` asks for the state's saved line, its
line feed too, and gives 4 where the lent buffer is too short for it. `load`, a
tab and the bytes of a saved line, in hex as above, goes on from the state of that
line, and gives 5 where it is the line of none; power-up is handed back then. `look`
asks for the report that 0x0D would send, and gives 7 outside absolute mode and else
4 where fewer than six bytes are lent. `clear` empties the latches, and gives 0 and
no bytes. Any other line that begins with `?` is a bad line.

The sessions, in order:
";

fn main() -> std::io::Result<()> {
    let arguments: Vec<PathBuf> = std::env::args().skip(1).map(PathBuf::from).collect();
    let [directory, list] = &arguments[..] else {
        eprintln!("usage: write_vectors DIRECTORY LIST");
        exit(2);
    };
    let groups = groups();
    check(&groups);
    fs::create_dir_all(directory)?;
    fs::write(directory.join("stdin"), inputs(&groups))?;
    fs::write(directory.join("stdout"), outputs(&groups))?;
    fs::write(list, list_of(&groups))
}

fn check(groups: &[Group]) {
    for session in groups.iter().flat_map(|group| &group.sessions) {
        if played(session.lent, &session.lines) != session.output {
            eprintln!("not as stated: {}", session.title);
            exit(1);
        }
    }
}

fn inputs(groups: &[Group]) -> String {
    let mut text = String::new();
    for session in groups.iter().flat_map(|group| &group.sessions) {
        let _ = writeln!(text, "=\t{}", session.lent);
        for line in &session.lines {
            text += line;
            text.push('\n');
        }
    }
    text
}

fn outputs(groups: &[Group]) -> String {
    let mut text = String::new();
    for session in groups.iter().flat_map(|group| &group.sessions) {
        let _ = writeln!(text, "=\t{}", session.lent);
        text += &session.output;
    }
    text
}

fn list_of(groups: &[Group]) -> String {
    let mut text = String::from(OPENING);
    let mut number = 0;
    for group in groups {
        let (first, last) = (number + 1, number + group.sessions.len());
        let _ = writeln!(text, "\n## {first} to {last}\n\n{}\n", group.about);
        for session in &group.sessions {
            number += 1;
            let _ = writeln!(text, "- {number}. {}", session.title);
        }
    }
    text
}
