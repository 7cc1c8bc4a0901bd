//! Writes a session made at random: SEED LINES [vectors].
//! With `GENERATE_COVERAGE` set, what it visits goes to standard error.

use std::io::Write;
use std::process::exit;

use model::coverage::Coverage;
use model::generator::session;
use model::program::Format;

fn main() {
    let arguments: Vec<String> = std::env::args().skip(1).collect();
    let Some((seed, lines, format)) = read(&arguments) else {
        eprintln!("usage: generate SEED LINES [vectors]");
        exit(2);
    };
    let text = session(seed, lines, format);
    if std::env::var_os("GENERATE_COVERAGE").is_some() {
        eprint!("{}", Coverage::of(&text, format));
    }
    // A write that fails ends the program.
    let _ = std::io::stdout().write_all(&text);
}

fn read(arguments: &[String]) -> Option<(u64, usize, Format)> {
    let (seed, lines, format) = match arguments {
        [seed, lines] => (seed, lines, Format::Text),
        [seed, lines, word] if word == "vectors" => (seed, lines, Format::Vectors),
        _ => return None,
    };
    Some((seed.parse().ok()?, lines.parse().ok()?, format))
}
