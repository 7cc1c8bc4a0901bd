//! Arbitrary states: the model writes a line, the program reads it and writes it
//! back, and the model reads what the program wrote.

use super::{beside, check_saved, Batch, Reply, BATCH};
use crate::arbitrary;
use crate::random::Random;
use crate::saved::LONGEST;
use crate::spoil::line_of;
use crate::state::State;

/// Tries so many states; what is wrong, if something is.
pub fn check(program: &str, count: u64, random: &mut Random) -> Result<(), String> {
    let mut left = count;
    while left > 0 {
        let states: Vec<State> = (0..left.min(BATCH))
            .map(|_| arbitrary::state(random))
            .collect();
        left -= states.len() as u64;
        check_batch(program, &states)?;
    }
    Ok(())
}

fn check_batch(program: &str, states: &[State]) -> Result<(), String> {
    let mut batch = Batch::new(LONGEST);
    for state in states {
        batch.load(&line_of(state));
        batch.save();
    }
    let replies = batch.replies(program)?;
    for (state, replies) in states.iter().zip(replies.chunks(2)) {
        check_state(state, &replies[0], &replies[1]).map_err(|what| {
            format!(
                "an arbitrary state: {what}\n{}",
                beside(state, &replies[1].bytes)
            )
        })?;
    }
    Ok(())
}

fn check_state(state: &State, loaded: &Reply, saved: &Reply) -> Result<(), String> {
    if loaded.answer != 0 || !loaded.bytes.is_empty() {
        return Err(format!("not loaded but answered {}", loaded.answer));
    }
    check_saved(saved, state)?;
    match saved.bytes == line_of(state) {
        true => Ok(()),
        false => Err(String::from("not the same bytes")),
    }
}
