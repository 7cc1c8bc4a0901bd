//! What a wrong variant does against request A4.

use super::Rules;
use crate::controller::{Answer, Refusal};
use crate::joysticks::{Joysticks, TRIGGER};
use crate::mouse::Button;
use crate::state::{JoystickMode, Role, State};

#[derive(Clone, Copy, Debug, PartialEq, Eq)]
pub enum FireFault {
    /// The button fires with port 0 a joystick too.
    AnyRole,
    /// The button fires in a monitoring mode too.
    Monitoring,
    /// The left button fires too.
    LeftToo,
    /// Position 0 goes with the trigger, and not the position held.
    NoPosition,
    /// A changed button turns the trigger over, so that something is sent in any
    /// case.
    TriggerTurned,
    /// The button and the stick's own trigger are or-ed: the stick cannot let go
    /// while the button is down.
    Joined,
    /// In interrogation mode or with joysticks off nothing is stored.
    NotStored,
    /// Switching the mouse off sends the trigger of a button that is down.
    SentAtMouseOff,
    /// Switching the mouse on lets the trigger go.
    LetGoAtMouseOn,
    /// The button does not change its level.
    LevelKept,
    /// A button with this refusal changes its level all the same.
    LevelRefused(Refusal),
}

/// The variants 38 to 49. The last shows only in a buffer that is too short, so
/// that no line of the text program can tell it.
pub(super) fn wrong_with_the_fire_button(number: u32) -> Option<FireFault> {
    Some(match number {
        38 => FireFault::AnyRole,
        39 => FireFault::Monitoring,
        40 => FireFault::LeftToo,
        41 => FireFault::NoPosition,
        42 => FireFault::TriggerTurned,
        43 => FireFault::Joined,
        44 => FireFault::NotStored,
        45 => FireFault::SentAtMouseOff,
        46 => FireFault::LetGoAtMouseOn,
        47 => FireFault::LevelKept,
        48 => FireFault::LevelRefused(Refusal::QueueFull),
        49 => FireFault::LevelRefused(Refusal::NoRoom),
        _ => return None,
    })
}

impl Rules {
    /// Whether this is what the variant does wrong.
    fn is_wrong(&self, fault: FireFault) -> bool {
        self.fire_fault == Some(fault)
    }

    /// "port 0 a mouse and no monitoring mode, a changed right button"; "The left
    /// button stays silent."
    pub fn fires(&self, button: Button, port0: Role, monitoring: bool) -> bool {
        (button == Button::Right || self.is_wrong(FireFault::LeftToo))
            && (port0 == Role::Mouse || self.is_wrong(FireFault::AnyRole))
            && (!monitoring || self.is_wrong(FireFault::Monitoring))
    }

    /// "a stick 1 event with the position held and that trigger": its byte.
    pub fn fire_byte(&self, joysticks: &Joysticks, down: bool) -> u8 {
        let held = joysticks.sticks[1];
        let position = held & !TRIGGER;
        let trigger = if down { TRIGGER } else { 0 };
        let stored_only = !joysticks.on || joysticks.mode == JoystickMode::Interrogation;
        match self.fire_fault {
            Some(FireFault::NoPosition) => trigger,
            Some(FireFault::TriggerTurned) => held ^ TRIGGER,
            Some(FireFault::NotStored) if stored_only => held,
            _ => trigger | position,
        }
    }

    /// The byte that a stick event stores: the one that came, whatever the button
    /// that fires does.
    pub fn stick_byte(&self, state: &State, stick: usize, byte: u8) -> u8 {
        let fires = stick == 1 && state.is_fire_button(Button::Right);
        let pressed = fires && state.mouse.is_down(Button::Right);
        if pressed && self.is_wrong(FireFault::Joined) {
            byte | TRIGGER
        } else {
            byte
        }
    }

    /// Whether the button's level follows a press or a release: "Every number but
    /// 0 [...] leaves state and buffer the same."
    pub fn level_follows(&self, answer: Answer) -> bool {
        match self.fire_fault {
            Some(FireFault::LevelKept) => false,
            Some(FireFault::LevelRefused(refusal)) => answer.is_ok() || answer == Err(refusal),
            _ => answer.is_ok(),
        }
    }

    /// "Switching the mouse off sends nothing": here with the right button down.
    pub fn push_at_mouse_off(&self, joysticks: &Joysticks, out: &mut Vec<u8>) {
        if joysticks.tells_changes() && self.is_wrong(FireFault::SentAtMouseOff) {
            out.extend_from_slice(&[0xFF, TRIGGER | joysticks.sticks[1]]);
        }
    }

    /// What switching the mouse on makes of stick 1: nothing.
    pub fn at_mouse_on(&self, joysticks: &mut Joysticks) {
        if self.is_wrong(FireFault::LetGoAtMouseOn) {
            joysticks.sticks[1] &= !TRIGGER;
        }
    }
}
