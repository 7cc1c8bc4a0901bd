//! States that sessions lead to: the program and the model play the same lines,
//! and the model reads what the program then saves as its own state.

use super::{beside, check_saved, Batch, BATCH};
use crate::generator::session;
use crate::limits::BUFFER;
use crate::program::Format;
use crate::random::Random;

/// The most lines before a state is saved.
const MOST_LINES: u64 = 80;

/// Tries so many states; what is wrong, if something is.
pub fn check(program: &str, count: u64, random: &mut Random) -> Result<(), String> {
    let mut left = count;
    while left > 0 {
        let tried = left.min(BATCH);
        left -= tried;
        check_batch(program, tried, random)?;
    }
    Ok(())
}

fn check_batch(program: &str, count: u64, random: &mut Random) -> Result<(), String> {
    let mut batch = Batch::new(BUFFER);
    let mut saves = Vec::new();
    for _ in 0..count {
        if random.one_in(4) {
            batch.head(BUFFER);
        }
        play_some(&mut batch, random);
        saves.push(batch.expected.len());
        batch.save();
    }
    let replies = batch.replies(program)?;
    for place in saves {
        let (_, state) = &batch.expected[place];
        check_saved(&replies[place], state).map_err(|what| {
            let saved = &replies[place].bytes;
            format!(
                "a state that a session leads to: {what}\n{}",
                beside(state, saved)
            )
        })?;
    }
    Ok(())
}

/// Some lines of a session of the text program: no questions, and no heads.
fn play_some(batch: &mut Batch, random: &mut Random) {
    let count = 1 + random.below(MOST_LINES) as usize;
    let text = session(random.below(u64::MAX), count, Format::Text);
    for line in text.split(|&byte| byte == b'\n') {
        if !line.starts_with(b"?") && !line.starts_with(b"=") {
            batch.line(line);
        }
    }
}
