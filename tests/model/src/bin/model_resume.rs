//! Plays a session from a saved line on: the first line of standard input is the
//! saved line, or `-` for power-up, and the last of standard output is the saved
//! line of the session's end.

use model::program::resume;

fn main() {
    let (mut input, mut output) = (std::io::stdin().lock(), std::io::stdout().lock());
    // A write that fails ends the program.
    let _ = resume(&mut input, &mut output);
}
