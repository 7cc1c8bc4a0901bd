//! What a wrong variant does against request A7 at 0x0D and at a button.

use super::{LookFault, Rules};
use crate::controller::Refusal;
use crate::limits::QUEUE_ROOM;
use crate::mouse::{Mouse, REPORT};
use crate::state::{MouseMode, State};

impl Rules {
    /// "0x0D there stays ignored": outside absolute mode.
    pub fn interrogates(&self, mode: MouseMode) -> bool {
        mode.is_absolute() || self.look_fault == Some(LookFault::AnyMode)
    }

    /// Whether an executed command "first resumes", as 0x0D does.
    pub fn resumes(&self, code: u8) -> bool {
        code != 0x0D || self.look_fault != Some(LookFault::NotResumed)
    }

    /// Whether a command of the mouse makes port 0 one, as 0x0D does.
    pub fn makes_a_mouse(&self, code: u8) -> bool {
        code != 0x0D || self.look_fault != Some(LookFault::RoleKept)
    }

    /// The bytes of 0x0D: those of a look.
    pub fn interrogated(&self, mouse: &Mouse) -> [u8; REPORT] {
        let mut mouse = *mouse;
        if self.look_fault == Some(LookFault::ClearedFirst) {
            mouse.latches = 0;
        }
        mouse.report()
    }

    /// Whether 0x0D clears in the end.
    pub fn interrogation_clears(&self) -> bool {
        self.look_fault != Some(LookFault::NotCleared)
    }

    /// What a command that is refused with 4 changes: nothing.
    pub fn after_refused(&self, code: u8, mouse: &mut Mouse) {
        if code == 0x0D && self.look_fault == Some(LookFault::ClearedRefused) {
            mouse.latches = 0;
        }
    }

    /// What a button's bytes change, written or queued: nothing.
    pub fn after_button(&self, state: &State, bytes: &[u8], mouse: &mut Mouse) {
        let report = bytes.first() == Some(&0xF7);
        let queued = state.paused;
        let fills = queued && state.queue.bytes().len() + bytes.len() == QUEUE_ROOM;
        let clears = self.look_fault == Some(LookFault::ButtonClears { queued })
            || self.look_fault == Some(LookFault::FillingClears) && fills;
        if report && clears {
            mouse.latches = 0;
        }
    }

    /// What a button that is refused changes: nothing. `latches` are those that it
    /// would have left.
    pub fn after_refused_button(&self, refusal: Refusal, latches: u8, mouse: &mut Mouse) {
        if self.look_fault == Some(LookFault::LatchedRefused(refusal)) {
            mouse.latches = latches;
        }
    }
}
