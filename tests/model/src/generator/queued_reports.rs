//! Looks about reports that go to the queue.

use super::looks::LOOK;
use super::{Generator, QUEUE};
use crate::arbitrary;
use crate::limits::QUEUE_ROOM;
use crate::mouse::REPORT;
use crate::spoil::line_of;
use crate::state::{Role, State};

impl Generator {
    /// In a buffer that is too short for a report, and so for a look, `queue` alone
    /// tells latches and coordinates: those of a button's report that waits there.
    pub(super) fn looks_before_a_queued_report(&mut self) {
        self.command(0x0C);
        self.exactly(&[0x07, 0x03]);
        self.motion();
        if self.random.one_in(2) {
            self.button();
        }
        self.line(LOOK);
        self.host(0x13);
        for _ in 0..=self.random.below(2) {
            self.motion();
            self.press_and_release(3);
        }
        self.line(QUEUE);
        if !self.random.one_in(3) {
            self.host(0x11);
        }
    }

    /// With room in the queue for just a report, or about that: buttons and looks.
    pub(super) fn looks_at_a_full_queue(&mut self) {
        let state = self.paused_in_absolute_mode();
        self.load(&line_of(&state));
        for _ in 0..=self.random.below(3) {
            match self.random.below(8) {
                0 => self.key(),
                1 => self.motion(),
                _ => self.press_and_release(1),
            }
            self.question(QUEUE, 4);
        }
        if self.random.one_in(2) {
            let code = self.random.pick(&[0x0D, 0x0D, 0x11]);
            self.host(code);
        }
    }

    /// A press and a release, at least one of which is a change, whatever the level
    /// was; after each a look, once in `count` times.
    pub(super) fn press_and_release(&mut self, count: u64) {
        let (button, first) = (self.random.pick(&['L', 'R']), self.random.one_in(2));
        for down in [first, !first] {
            self.button_line(button, down);
            self.glance(count);
        }
    }

    /// An arbitrary state with the mouse live, in which a press, a release or both
    /// report, and with a queue that a report or two would fill.
    fn paused_in_absolute_mode(&mut self) -> State {
        let mut state = arbitrary::state(&mut self.random);
        while !state.mouse.mode.is_absolute() {
            state = arbitrary::state(&mut self.random);
        }
        state.mouse.on = true;
        state.mouse.action = self.random.between(1, 3) as u8;
        state.mouse.latches = self.random.below(16) as u8;
        state.joysticks.leave_monitoring();
        state.port0 = Role::Mouse;
        state.paused = true;
        let room = match self.random.below(8) {
            0..=3 => REPORT,
            4 | 5 => 2 * REPORT,
            6 => self.random.pick(&[REPORT - 1, REPORT + 1]),
            _ => 0,
        };
        state.queue = arbitrary::queue(&mut self.random, QUEUE_ROOM - room);
        state
    }
}
