//! What a wrong variant does against request A7.

use super::Rules;
use crate::command::Command;
use crate::controller::{Answer, Refusal};
use crate::look::{clear, look};
use crate::mouse::REPORT;
use crate::state::{MouseMode, Role, State};

/// The latches of releases: "2 right up", "8 left up".
const RELEASES: u8 = 2 + 8;

/// First come those of the look: what it changes, when it is refused, and what it
/// shows; then those of the clearing; then those of 0x0D and of the buttons
/// (`interrogation`).
#[derive(Clone, Copy, Debug, PartialEq, Eq)]
pub enum LookFault {
    /// A look makes this change.
    Changes(Change),
    /// A look that is refused with 4 makes this change.
    RefusedChanges(Change),
    /// A look resumes: the queue is written before the report.
    Resumes,
    /// 7 is given in this state of absolute mode too.
    SevenToo(When),
    /// Outside absolute mode a look gives six bytes.
    SeenOutside,
    /// In keycode mode a look gives six bytes, so that 7 is for relative mode alone.
    SeenInKeycode,
    /// 4 is tested before 7.
    RoomFirst,
    /// A buffer of five bytes is enough for a look.
    FiveEnough,
    /// A look needs a buffer of seven bytes.
    SevenNeeded,
    /// A look shows no latches.
    NoLatches,
    /// A look shows where held motion would move the coordinates.
    HeldApplied,
    /// The clearing works in absolute mode alone.
    ClearsInAbsolute,
    /// The clearing works while the mouse is live alone.
    ClearsLive,
    /// The clearing makes this change too.
    ClearChanges(Change),
    /// The clearing leaves the latches of releases.
    ClearsPresses,
    /// The clearing needs room for a report.
    ClearNeedsRoom,
    /// 0x0D that is refused with 4 clears.
    ClearedRefused,
    /// 0x0D does not clear.
    NotCleared,
    /// 0x0D clears and then looks.
    ClearedFirst,
    /// 0x0D is executed outside absolute mode too.
    AnyMode,
    /// A button's report clears where it is written, or where it is queued.
    ButtonClears { queued: bool },
    /// A button's report clears where it fills the queue.
    FillingClears,
    /// A button that is refused with this sets its latch.
    LatchedRefused(Refusal),
    /// 0x0D does not make port 0 a mouse.
    RoleKept,
    /// 0x0D does not resume.
    NotResumed,
}

/// What a look or a clearing changes though it should not.
#[derive(Clone, Copy, Debug, PartialEq, Eq)]
pub enum Change {
    Latches,
    /// The pause ends, and the queue is lost.
    Pause,
    /// Port 0 becomes a mouse.
    Port,
    /// A half-received command ends.
    Command,
    Held,
    Coordinates,
}

/// A state in which a look is given all the same.
#[derive(Clone, Copy, Debug, PartialEq, Eq)]
pub enum When {
    MouseOff,
    JoystickPort,
    Monitoring,
    Paused,
    WithinCommand,
}

/// The variants from 71 on. 98 to 104, 109 and 110 are wrong about what the host asks
/// or is sent, so that lines of the text program tell them too.
pub(super) fn wrong_with_the_look(number: u32) -> Option<LookFault> {
    Some(match number {
        71 => LookFault::Changes(Change::Latches),
        72 => LookFault::Resumes,
        73 => LookFault::Changes(Change::Pause),
        74 => LookFault::Changes(Change::Port),
        75 => LookFault::Changes(Change::Command),
        76 => LookFault::Changes(Change::Held),
        77 => LookFault::SevenToo(When::MouseOff),
        78 => LookFault::SevenToo(When::JoystickPort),
        79 => LookFault::SevenToo(When::Monitoring),
        80 => LookFault::SevenToo(When::Paused),
        81 => LookFault::SevenToo(When::WithinCommand),
        82 => LookFault::SeenOutside,
        83 => LookFault::SeenInKeycode,
        84 => LookFault::RoomFirst,
        85 => LookFault::FiveEnough,
        86 => LookFault::SevenNeeded,
        87 => LookFault::NoLatches,
        88 => LookFault::ClearsInAbsolute,
        89 => LookFault::ClearsLive,
        90 => LookFault::ClearChanges(Change::Coordinates),
        91 => LookFault::ClearChanges(Change::Command),
        92 => LookFault::ClearChanges(Change::Held),
        93 => LookFault::ClearChanges(Change::Pause),
        94 => LookFault::ClearChanges(Change::Port),
        95 => LookFault::ClearsPresses,
        96 => LookFault::ClearNeedsRoom,
        97 => LookFault::ClearedRefused,
        98 => LookFault::NotCleared,
        99 => LookFault::ClearedFirst,
        100 => LookFault::AnyMode,
        101 => LookFault::ButtonClears { queued: false },
        102 => LookFault::ButtonClears { queued: true },
        103 => LookFault::RoleKept,
        104 => LookFault::NotResumed,
        105 => LookFault::RefusedChanges(Change::Held),
        106 => LookFault::RefusedChanges(Change::Latches),
        107 => LookFault::HeldApplied,
        108 => LookFault::LatchedRefused(Refusal::NoRoom),
        109 => LookFault::LatchedRefused(Refusal::QueueFull),
        110 => LookFault::FillingClears,
        _ => return None,
    })
}

impl Rules {
    /// What a look gives.
    pub fn look(&self, state: &mut State, lent: usize) -> Result<Vec<u8>, Refusal> {
        let seen = self.seen(state, lent);
        match (self.look_fault, &seen) {
            (Some(LookFault::Changes(change)), Ok(_)) => change.make(state),
            (Some(LookFault::RefusedChanges(change)), Err(Refusal::NoRoom)) => change.make(state),
            (Some(LookFault::Resumes), Ok(_)) => Change::Pause.make(state),
            _ => {}
        }
        seen
    }

    fn seen(&self, state: &State, lent: usize) -> Result<Vec<u8>, Refusal> {
        let mut mouse = state.mouse;
        let keycode = matches!(mouse.mode, MouseMode::Keycode { .. });
        match self.look_fault {
            Some(LookFault::SevenToo(when)) if when.is_now(state) => Err(Refusal::NotAbsolute),
            Some(LookFault::SeenOutside) => fitting(mouse.report().into(), lent),
            Some(LookFault::SeenInKeycode) if keycode => fitting(mouse.report().into(), lent),
            Some(LookFault::RoomFirst) if lent < REPORT => Err(Refusal::NoRoom),
            Some(LookFault::FiveEnough) => Ok(look(state, lent + 1)?.into()),
            Some(LookFault::SevenNeeded) => Ok(look(state, lent.saturating_sub(1))?.into()),
            Some(LookFault::NoLatches) => {
                mouse.latches = 0;
                look(state, lent).map(|_| mouse.report().into())
            }
            Some(LookFault::HeldApplied) => {
                if let MouseMode::Absolute { maximum } = mouse.mode {
                    mouse.move_coordinates(maximum);
                }
                look(state, lent).map(|_| mouse.report().into())
            }
            Some(LookFault::Resumes) => {
                let report = look(state, lent)?;
                fitting([state.queue.bytes(), &report].concat(), lent)
            }
            _ => Ok(look(state, lent)?.into()),
        }
    }

    /// What the clearing does, and its answer.
    pub fn clear(&self, state: &mut State, lent: usize) -> Answer {
        let left = state.mouse.latches & RELEASES;
        match self.look_fault {
            Some(LookFault::ClearsInAbsolute) if !state.mouse.mode.is_absolute() => return Ok(()),
            Some(LookFault::ClearsLive) if !state.mouse_is_live() => return Ok(()),
            Some(LookFault::ClearNeedsRoom) if lent < REPORT => return Err(Refusal::NoRoom),
            Some(LookFault::ClearChanges(change)) => change.make(state),
            _ => {}
        }
        clear(state);
        if self.look_fault == Some(LookFault::ClearsPresses) {
            state.mouse.latches = left;
        }
        Ok(())
    }
}

impl Change {
    fn make(self, state: &mut State) {
        match self {
            Change::Latches => clear(state),
            Change::Pause => {
                state.paused = false;
                state.queue.clear();
            }
            Change::Port => state.port0 = Role::Mouse,
            Change::Command => state.command = Command::default(),
            Change::Held => state.mouse.held = [0, 0],
            Change::Coordinates => state.mouse.coordinates = [0, 0],
        }
    }
}

impl When {
    /// Whether a state of absolute mode is this one.
    fn is_now(self, state: &State) -> bool {
        match self {
            When::MouseOff => !state.mouse.on,
            When::JoystickPort => state.port0 == Role::Joystick,
            When::Monitoring => state.joysticks.is_monitoring(),
            When::Paused => state.paused,
            When::WithinCommand => state.command.is_half_received(),
        }
    }
}

/// The bytes, if they have room.
fn fitting(bytes: Vec<u8>, lent: usize) -> Result<Vec<u8>, Refusal> {
    if bytes.len() <= lent {
        Ok(bytes)
    } else {
        Err(Refusal::NoRoom)
    }
}
