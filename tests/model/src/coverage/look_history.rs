//! What came before a look, a 0x0D or a report, where that is what it shows.

use super::Line;
use crate::controller::Input;
use crate::limits::QUEUE_ROOM;
use crate::mouse::REPORT;

#[derive(Default)]
pub struct History {
    /// What the line before was, if a look right after it shows that.
    last: Option<Last>,
    /// How many looks came since a 0x0D, if nothing else did.
    looks: Option<u64>,
    /// The latches that a look has shown and that are still set.
    seen: u8,
    /// The latches that were set at a look with 4 and still are.
    unseen: u8,
    /// The latches that were emptied outside absolute mode: not set since, nor has
    /// anything else come since that would have emptied them.
    emptied: u8,
}

#[derive(Clone, Copy, PartialEq, Eq)]
enum Last {
    /// A button's report was written.
    Written,
    /// A button's report was queued, and there was room for more.
    Queued,
    /// A button's report was queued and filled the queue.
    Filled,
    /// A latch was set without a report.
    Latch,
    /// A button was refused.
    RefusedButton,
    /// 0x0D was executed while latches were set.
    Interrogated,
    /// 0x0D was refused with 4 while latches were set.
    RefusedInterrogation,
    /// 0x0D was ignored while latches were set.
    IgnoredInterrogation,
    /// Latches were emptied.
    Cleared,
    Looked,
}

impl History {
    /// What a line shows of those before it.
    pub fn shown_by(&self, line: &Line) -> Vec<&'static str> {
        let executed = is_executed_interrogation(line);
        let looked_before = self.looks.is_some_and(|looks| looks > 0);
        let report_waits = matches!(after_button(line), Some(Last::Queued | Last::Filled));
        let shown = [
            ("a look between two 0x0D", executed && looked_before),
            (
                "0x0D shows latches that a look has seen",
                executed && self.seen != 0,
            ),
            (
                "a report that waits shows latches that a look with 4 did not",
                report_waits && self.unseen != 0,
            ),
        ];
        let shown = shown
            .into_iter()
            .filter_map(|(what, met)| met.then_some(what));
        shown.chain(self.shown_by_look(line)).collect()
    }

    fn shown_by_look(&self, line: &Line) -> Option<&'static str> {
        if line.text != b"?\tlook" {
            return None;
        }
        if !line.taken() {
            let ignored = self.last == Some(Last::IgnoredInterrogation);
            return ignored.then_some("7 after 0x0D was ignored");
        }
        if self.emptied != 0 {
            return Some("latches emptied outside absolute mode");
        }
        Some(match self.last? {
            Last::Written => "a look after a report was written",
            Last::Queued => "a look after a report was queued",
            Last::Filled => "a look after a report that fills the queue",
            Last::Latch => "a look after a latch without a report",
            Last::RefusedButton => "a look after a button was refused",
            Last::Interrogated => "a look after 0x0D",
            Last::RefusedInterrogation => "a look after 0x0D was refused with 4",
            Last::IgnoredInterrogation => return None,
            Last::Cleared => "a look after a clearing",
            Last::Looked => "a look after a look",
        })
    }

    pub fn follow(&mut self, line: &Line) {
        let looked = line.text == b"?\tlook";
        let cleared = line.text == b"?\tclear";
        self.looks = match self.looks {
            _ if is_executed_interrogation(line) => Some(0),
            Some(looks) if looked => Some(looks + 1),
            _ => None,
        };
        self.follow_latches(line);
        let set = line.before.mouse.latches != 0;
        self.last = match line.input {
            _ if looked && line.taken() => Some(Last::Looked),
            _ if cleared && set => Some(Last::Cleared),
            Some(Input::Button { .. }) => after_button(line),
            Some(Input::Host(_)) if is_interrogation(line) && set => {
                Some(after_interrogation(line))
            }
            _ => None,
        };
    }

    fn follow_latches(&mut self, line: &Line) {
        let [before, after] = [line.before, line.after].map(|state| state.mouse.latches);
        match (line.text, line.answer) {
            (b"?\tlook", 0) => self.seen |= before,
            (b"?\tlook", 4) => self.unseen |= before,
            (b"?\tclear", _) if !executes(line) => self.emptied |= before,
            (b"?\tclear", _) => self.emptied = 0,
            _ if line.text.starts_with(b"?\tload\t") => {
                (self.seen, self.unseen, self.emptied) = (0, 0, 0);
            }
            _ if is_executed_interrogation(line) || is_reset(line) => self.emptied = 0,
            _ => {}
        }
        self.seen &= after;
        self.unseen &= after;
        self.emptied &= !after;
    }
}

/// Whether this is 0x0D as a command, executed or not.
fn is_interrogation(line: &Line) -> bool {
    let half_received = line.before.command.is_half_received();
    line.input == Some(Input::Host(0x0D)) && !half_received
}

fn is_executed_interrogation(line: &Line) -> bool {
    is_interrogation(line) && line.taken() && executes(line)
}

/// Whether 0x0D is executed in the state before the line: in absolute mode.
fn executes(line: &Line) -> bool {
    line.before.mouse.mode.is_absolute()
}

/// Whether the line is the 0x01 of a reset that is taken.
fn is_reset(line: &Line) -> bool {
    let command = &line.before.command;
    let waits = command.is_half_received() && command.code() == 0x80;
    waits && line.input == Some(Input::Host(0x01)) && line.taken()
}

fn after_interrogation(line: &Line) -> Last {
    match (executes(line), line.taken()) {
        (false, _) => Last::IgnoredInterrogation,
        (true, true) => Last::Interrogated,
        (true, false) => Last::RefusedInterrogation,
    }
}

/// In absolute mode: none where no latch was set, since the mouse is not live, the
/// level was so already, or the latch was set already and nothing was sent.
fn after_button(line: &Line) -> Option<Last> {
    let button = matches!(line.input, Some(Input::Button { .. }));
    if !button || !executes(line) {
        return None;
    }
    let [waited, waits] = [line.before, line.after].map(|state| state.queue.bytes().len());
    let set = line.after.mouse.latches != line.before.mouse.latches;
    match (line.taken(), line.written, waits - waited) {
        (false, _, _) => Some(Last::RefusedButton),
        (true, REPORT, _) => Some(Last::Written),
        (true, _, REPORT) if waits == QUEUE_ROOM => Some(Last::Filled),
        (true, _, REPORT) => Some(Last::Queued),
        _ => set.then_some(Last::Latch),
    }
}
