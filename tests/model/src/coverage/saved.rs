//! What a session does with saved lines: request A2.

use std::fmt;

use super::{add, mode_numbers, Counts, Line, JOYSTICK_MODES, MOUSE_MODES};
use crate::command::MEMORY_LOAD;
use crate::limits::QUEUE_ROOM;
use crate::question::NO_STATE;
use crate::saved::{LONGEST, SHORTEST};
use crate::spoil::line_of;

#[derive(Default)]
pub struct SavedCoverage {
    /// How often each thing was met, by what it is in plain words.
    pub met: Counts,
    /// Lines that were loaded, by mouse mode and joystick mode.
    pub pairs: [[u64; 5]; 3],
    /// Whether the line before was a load that was taken.
    loaded: bool,
}

impl SavedCoverage {
    pub fn count(&mut self, line: &Line) {
        let loads = line.text.starts_with(b"?\tload\t");
        if loads {
            add(&mut self.met, &loads_of(line));
            if line.taken() {
                let (mouse, sticks) = mode_numbers(line.after);
                self.pairs[mouse][sticks] += 1;
            }
        } else if line.text == b"?\tsave" {
            add(&mut self.met, &saves_of(line));
        } else if self.loaded && line.input.is_some() {
            add(&mut self.met, &inputs_of(line));
        }
        self.loaded = loads && line.taken();
    }
}

fn loads_of(line: &Line) -> [(&'static str, bool); 12] {
    let (taken, state) = (line.taken(), line.after);
    let queue = state.queue.bytes().len();
    let paused = taken && state.paused;
    let command = &state.command;
    let half = taken && command.is_half_received();
    let memory = half && command.code() == MEMORY_LOAD;
    let data = command.data_to_come();
    let far = state.mouse.held.iter().any(|held| held.abs() > 254);
    let refused = line.answer == usize::from(NO_STATE);
    [
        ("loaded not paused", taken && !state.paused),
        ("loaded paused, no queue", paused && queue == 0),
        ("loaded paused, a queue of 1", paused && queue == 1),
        ("loaded paused, a full queue", paused && queue == QUEUE_ROOM),
        ("loaded a half-received command", half),
        ("loaded a memory load before its data", memory && data == 0),
        ("loaded a memory load within its data", memory && data > 0),
        ("loaded held motion beyond 254", taken && far),
        (
            "loaded, mouse off with motion held",
            taken && off_with_motion(line),
        ),
        (
            "loaded monitoring, joysticks off",
            taken && off_and_monitoring(line),
        ),
        ("load refused", refused),
        (
            "load refused, another state before",
            refused && line.before != line.after,
        ),
    ]
}

fn off_with_motion(line: &Line) -> bool {
    !line.after.mouse.on && line.after.mouse.held != [0, 0]
}

fn off_and_monitoring(line: &Line) -> bool {
    !line.after.joysticks.on && line.after.joysticks.is_monitoring()
}

fn saves_of(line: &Line) -> [(&'static str, bool); 8] {
    let (saved, refused) = (line.taken(), line.answer == 4);
    let length = line_of(line.before).len();
    [
        ("saved", saved),
        ("saved, the shortest line", saved && length == SHORTEST),
        ("saved, the longest line", saved && length == LONGEST),
        (
            "saved, the buffer just long enough",
            saved && line.lent == length,
        ),
        ("saved, a byte to spare", saved && line.lent == length + 1),
        ("save refused", refused),
        (
            "save refused for one byte",
            refused && line.lent + 1 == length,
        ),
        (
            "saved within a command",
            saved && line.before.command.is_half_received(),
        ),
    ]
}

/// The input right after a load.
fn inputs_of(line: &Line) -> [(&'static str, bool); 3] {
    let (before, after) = (&line.before.command, &line.after.command);
    let ends = before.is_half_received() && !after.is_half_received();
    [
        ("input after a load taken", line.taken()),
        ("input after a load refused", !line.taken()),
        ("command of a load ended", line.taken() && ends),
    ]
}

impl fmt::Display for SavedCoverage {
    fn fmt(&self, f: &mut fmt::Formatter<'_>) -> fmt::Result {
        writeln!(f, "saved lines:")?;
        for (what, count) in &self.met {
            writeln!(f, "  {what}: {count}")?;
        }
        writeln!(f, "mouse mode, joystick mode: lines loaded")?;
        for (mouse, row) in MOUSE_MODES.iter().zip(&self.pairs) {
            for (sticks, count) in JOYSTICK_MODES.iter().zip(row) {
                writeln!(f, "  {mouse}, {sticks}: {count}")?;
            }
        }
        Ok(())
    }
}
