//! Questions, which the text program's lines cannot spell: a line `?`, a tab
//! and a word. None is an input. `load` and `clear` alone change something, and
//! `save` and `look` alone mind the lent buffer.

use crate::controller::{answer_number, Answer, Refusal};
use crate::limits::LONGEST_QUESTION;
use crate::rules::SavedFault;
use crate::saved::{read, write};
use crate::state::State;
use crate::text::hex;

/// "Refusals: 5, given exactly when the line is one that no such state writes"
pub const NO_STATE: u8 = 5;

/// Answers what `line` asks, with what it asks for in `out`; none if it asks
/// nothing.
pub fn answer(line: &[u8], state: &mut State, lent: usize, out: &mut Vec<u8>) -> Option<u8> {
    let words = line.strip_prefix(b"?\t")?;
    match words {
        // The bytes that wait, oldest first.
        b"queue" => out.extend_from_slice(state.queue.bytes()),
        // How many keys are held.
        b"lamp" => out.push(state.rules.lamp(&state.keys)),
        b"save" => return Some(save(state, lent, out)),
        b"look" => return Some(answer_number(look(state, lent, out))),
        b"clear" => return Some(answer_number(clear(state, lent))),
        _ => return load(line, state),
    }
    Some(0)
}

/// The state's line. "A buffer that is too short for the line is refused with
/// 4."
fn save(state: &State, lent: usize, out: &mut Vec<u8>) -> u8 {
    write(state, out);
    let not_counted = usize::from(state.rules.has_fault(SavedFault::RoomForLineFeed));
    if out.len() - not_counted <= lent {
        return 0;
    }
    out.clear();
    answer_number(Err(Refusal::NoRoom))
}

/// The report that the panel shows.
fn look(state: &mut State, lent: usize, out: &mut Vec<u8>) -> Answer {
    let rules = state.rules;
    out.extend(rules.look(state, lent)?);
    Ok(())
}

fn clear(state: &mut State, lent: usize) -> Answer {
    let rules = state.rules;
    rules.clear(state, lent)
}

/// Goes on from the state of a line, whose bytes are given in hex, or as `-`
/// where there are none. On 5 "power-up is handed back". None if the bytes are
/// given in another way.
fn load(line: &[u8], state: &mut State) -> Option<u8> {
    let bytes = line.strip_prefix(b"?\tload\t")?;
    if line.len() > LONGEST_QUESTION {
        return None;
    }
    let saved = match bytes {
        b"" => return None,
        b"-" => Vec::new(),
        bytes => bytes.chunks(2).map(hex).collect::<Option<Vec<u8>>>()?,
    };
    Some(read_into(&saved, state))
}

/// Reads a line into a state: power-up, and 5, if it is the line of none.
pub fn read_into(line: &[u8], state: &mut State) -> u8 {
    let rules = state.rules;
    match read(line, rules) {
        Some(read) => {
            *state = read;
            0
        }
        None if rules.has_fault(SavedFault::KeptWhenRefused) => NO_STATE,
        None => {
            *state = State::power_up(rules);
            NO_STATE
        }
    }
}
