//! What a session does with keys and resets: request A1.

use std::collections::BTreeSet;
use std::fmt;

use super::{add, Counts, Line};
use crate::controller::Input;
use crate::keys::LAST;
use crate::state::{JoystickMode, State};

/// With more keys down than this, nearly all are.
const MANY: usize = 100;

#[derive(Default)]
pub struct KeyCoverage {
    /// How often each thing was met, by what it is in plain words.
    pub met: Counts,
    /// The same, of what only short buffers and questions show.
    pub met_with_vectors: Counts,
    /// The lengths of the buffers lent with a reset while keys were down.
    pub lent: BTreeSet<usize>,
}

impl KeyCoverage {
    pub fn count(&mut self, line: &Line) {
        match line.input {
            Some(Input::Key { code, down }) => {
                add(&mut self.met, &key_events(line, code, down));
                let refused = refused_for_room(line, code, down);
                add(&mut self.met_with_vectors, &refused);
            }
            Some(Input::Host(0x01)) if line.is_reset() => {
                add(&mut self.met, &resets(line));
                add(&mut self.met_with_vectors, &resets_and_room(line));
                if line.held() > 0 {
                    self.lent.insert(line.lent);
                }
            }
            None if line.text == b"?\tlamp" => {
                add(&mut self.met_with_vectors, &lamps(line));
            }
            _ => {}
        }
    }
}

impl Line<'_> {
    /// How many keys were down.
    fn held(&self) -> usize {
        usize::from(self.before.keys.count())
    }

    /// Whether a byte 0x01 ends a reset, or would if it were taken.
    pub(super) fn is_reset(&self) -> bool {
        let command = &self.before.command;
        command.is_half_received() && command.code() == 0x80
    }
}

fn key_events(line: &Line, code: u8, down: bool) -> [(&'static str, bool); 12] {
    let mode = line.before.joysticks.mode;
    let monitoring = matches!(mode, JoystickMode::Monitoring { .. });
    let fire = mode == JoystickMode::FireMonitoring;
    let paused = line.before.paused;
    let changes = line.before.keys != line.after.keys;
    let outside = line.answer == 1;
    let full = line.answer == 2;
    let was_down = !outside && line.before.keys.is_down(code);
    [
        ("entered in monitoring", monitoring && down && changes),
        ("entered in fire monitoring", fire && down && changes),
        ("entered while paused", paused && down && changes),
        ("left in monitoring", monitoring && !down && changes),
        ("left in fire monitoring", fire && !down && changes),
        ("left while paused", paused && !down && changes),
        ("pressed again", line.taken() && down && was_down),
        ("released alone", line.taken() && !down && !was_down),
        ("press refused with 1", outside && down),
        ("release refused with 1", outside && !down),
        ("key up, press refused with 2", full && down && !was_down),
        (
            "key down, release refused with 2",
            full && !down && was_down,
        ),
    ]
}

fn refused_for_room(line: &Line, code: u8, down: bool) -> [(&'static str, bool); 2] {
    let short = line.answer == 4;
    let was_down = short && line.before.keys.is_down(code);
    [
        ("key up, press refused with 4", short && down && !was_down),
        ("key down, release refused with 4", !down && was_down),
    ]
}

fn resets(line: &Line) -> [(&'static str, bool); 6] {
    let State {
        paused, joysticks, ..
    } = line.before;
    let monitoring = joysticks.is_monitoring();
    let waiting = !line.before.queue.bytes().is_empty();
    let names = line.taken() && line.held() > 0;
    [
        ("reset names none", line.taken() && !names),
        ("reset names keys", names),
        ("reset names many keys", names && line.held() > MANY),
        ("reset names keys, monitoring", names && monitoring),
        ("reset names keys, paused", names && *paused),
        ("reset names keys and drops a queue", names && waiting),
    ]
}

fn resets_and_room(line: &Line) -> [(&'static str, bool); 5] {
    let due = 1 + line.held();
    let many = line.held() > MANY;
    let refused = line.answer == 4 && line.lent > 0;
    let just_refused = refused && line.lent + 1 == due;
    let fills = line.taken() && due > 1 && line.lent == due;
    [
        ("reset refused for its breaks", refused),
        ("reset refused for one byte", just_refused),
        ("reset of many keys refused for one", many && just_refused),
        ("reset fills the buffer", fills),
        ("reset of many keys fills the buffer", many && fills),
    ]
}

/// In the text program the line is bad, and nothing is told.
fn lamps(line: &Line) -> [(&'static str, bool); 4] {
    let (told, held) = (line.taken(), line.held());
    let last = line.before.keys.is_down(LAST);
    [
        ("lamp of none", told && held == 0),
        ("lamp of some", told && held > 0),
        ("lamp of many", told && held > MANY),
        ("lamp of the last key", told && last),
    ]
}

impl fmt::Display for KeyCoverage {
    fn fmt(&self, f: &mut fmt::Formatter<'_>) -> fmt::Result {
        writeln!(f, "keys and resets:")?;
        for (what, count) in self.met.iter().chain(&self.met_with_vectors) {
            writeln!(f, "  {what}: {count}")?;
        }
        let lengths = self.lent.len();
        writeln!(f, "lengths of buffers lent as keys are named: {lengths}")
    }
}
