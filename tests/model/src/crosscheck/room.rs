//! "A buffer that is too short for the line is refused with 4.": each state is
//! saved with a buffer of its line's length, and of a byte less.

use super::{beside, Batch, Reply, BATCH};
use crate::arbitrary;
use crate::random::Random;
use crate::spoil::line_of;
use crate::state::State;

/// Tries so many states; what is wrong, if something is.
pub fn check(program: &str, count: u64, random: &mut Random) -> Result<(), String> {
    let mut left = count;
    while left > 0 {
        let states: Vec<State> = (0..left.min(BATCH))
            .map(|_| arbitrary::state(random))
            .collect();
        left -= states.len() as u64;
        check_batch(program, &states)?;
    }
    Ok(())
}

fn check_batch(program: &str, states: &[State]) -> Result<(), String> {
    let mut batch = Batch::new(0);
    for state in states {
        let line = line_of(state);
        for lent in [line.len() - 1, line.len()] {
            batch.head(lent);
            batch.load(&line);
            batch.save();
        }
    }
    let replies = batch.replies(program)?;
    for (state, replies) in states.iter().zip(replies.chunks(4)) {
        check_state(state, &replies[1], &replies[3])?;
    }
    Ok(())
}

fn check_state(state: &State, short: &Reply, enough: &Reply) -> Result<(), String> {
    let line = line_of(state);
    let (answer, length) = (short.answer, line.len());
    if answer != 4 || !short.bytes.is_empty() {
        return Err(format!(
            "a buffer of {} bytes for a line of {length}: answered {answer}, not 4\n{}",
            length - 1,
            beside(state, &short.bytes)
        ));
    }
    match enough.answer == 0 && enough.bytes == line {
        true => Ok(()),
        false => Err(format!(
            "a buffer of {length} bytes for a line of {length}: answered {}\n{}",
            enough.answer,
            beside(state, &enough.bytes)
        )),
    }
}
