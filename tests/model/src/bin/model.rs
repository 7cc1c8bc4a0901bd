//! The text program: standard input to standard output.

use model::program::{run, Format};

fn main() {
    let (mut input, mut output) = (std::io::stdin().lock(), std::io::stdout().lock());
    // A write that fails ends the program.
    let _ = run(&mut input, &mut output, Format::Text);
}
