//! Plays sessions that are each headed by the length of the lent buffer, and
//! answers questions.

use model::program::{run, Format};

fn main() {
    let (mut input, mut output) = (std::io::stdin().lock(), std::io::stdout().lock());
    // A write that fails ends the program.
    let _ = run(&mut input, &mut output, Format::Vectors);
}
