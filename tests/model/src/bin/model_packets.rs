//! Lists the packets that received bytes are cut into.

use model::listing::run;

fn main() {
    let (mut input, mut output) = (std::io::stdin().lock(), std::io::stdout().lock());
    // A write that fails ends the program.
    let _ = run(&mut input, &mut output);
}
