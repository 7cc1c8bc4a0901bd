//! Another program, run on a session.

use std::io::{Read, Write};
use std::process::{exit, Command, Stdio};

/// A pipe holds that much on every system, so that a writer need not wait for its
/// reader.
const HELD_BY_A_PIPE: usize = 4096;

/// Runs a program, with words after its name as its arguments.
pub fn output_of(program: &str, input: &[u8]) -> Vec<u8> {
    let mut words = program.split_whitespace();
    let child = Command::new(words.next().unwrap_or_default())
        .args(words)
        .stdin(Stdio::piped())
        .stdout(Stdio::piped())
        .spawn();
    let mut child = child.unwrap_or_else(|error| {
        eprintln!("{program}: {error}");
        exit(2);
    });
    let (stdin, stdout) = (child.stdin.take(), child.stdout.take());
    let mut output = Vec::new();
    std::thread::scope(|scope| {
        // A program that ends early is seen by what its output lacks.
        let feed = || stdin.map(|mut pipe| pipe.write_all(input));
        if input.len() > HELD_BY_A_PIPE {
            scope.spawn(feed);
        } else {
            feed();
        }
        let _ = stdout.map(|mut pipe| pipe.read_to_end(&mut output));
    });
    // How a program ended is part of what it gave.
    match child.wait() {
        Ok(status) if status.success() => {}
        Ok(status) => output.extend(format!("({status})\n").bytes()),
        Err(error) => output.extend(format!("({error})\n").bytes()),
    }
    output
}
