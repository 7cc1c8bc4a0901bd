//! Request A7: "Look without clearing." Command 0x0D "is one after the other"
//! (`controller`), and a button's report "is the look's bytes alone" (`mouse`).

use crate::controller::Refusal;
use crate::mouse::REPORT;
use crate::state::State;

/// "a look, which writes the report's six bytes into a lent buffer and changes no
/// state". "7, exactly when the panel looks outside absolute mode, tested before
/// 4"; it works in any state of the mouse (reading 92).
pub fn look(state: &State, lent: usize) -> Result<[u8; REPORT], Refusal> {
    if !state.mouse.mode.is_absolute() {
        return Err(Refusal::NotAbsolute);
    }
    if lent < REPORT {
        return Err(Refusal::NoRoom);
    }
    Ok(state.mouse.report())
}

/// "a clearing, which only empties the latches": in any mode and state, and
/// refuses nothing (reading 116).
pub fn clear(state: &mut State) {
    state.mouse.latches = 0;
}
