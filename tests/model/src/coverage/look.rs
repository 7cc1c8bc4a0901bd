//! What a session does with looks and clearings: request A7.

use std::collections::BTreeSet;
use std::fmt;

use super::look_history::History;
use super::{add, mode_numbers, Counts, Line, JOYSTICK_MODES, MOUSE_MODES};
use crate::limits::QUEUE_ROOM;
use crate::mouse::REPORT;
use crate::state::{MouseMode, Role, State};

/// By mouse mode, joystick mode, not paused or paused, the mouse off or on, and
/// port 0's role.
pub type States = [[[[[u64; 2]; 2]; 2]; 5]; 3];

#[derive(Default)]
pub struct LookCoverage {
    /// How often each thing was met, by what it is in plain words.
    pub met: Counts,
    pub looks: States,
    pub clearings: States,
    /// Looks that were given, by the latches that they showed.
    pub shown: [u64; 16],
    /// Clearings in absolute mode, by the latches that they emptied.
    pub emptied: [u64; 16],
    /// Looks outside absolute mode and in it, by the length of the buffer: 0 to 7,
    /// or more.
    pub lent: [[u64; 9]; 2],
    /// The commands within which the panel looked, and within which it cleared.
    pub within: [BTreeSet<u8>; 2],
    history: History,
}

impl LookCoverage {
    /// A session begins.
    pub fn start_session(&mut self) {
        self.history = History::default();
    }

    pub fn count(&mut self, line: &Line) {
        let bad = line.answer == 9 && line.text.starts_with(b"?");
        match line.text {
            _ if bad => add(&mut self.met, &misspelt(line)),
            b"?\tlook" => self.count_look(line),
            b"?\tclear" => self.count_clearing(line),
            _ => {}
        }
        for what in self.history.shown_by(line) {
            add(&mut self.met, &[(what, true)]);
        }
        self.history.follow(line);
    }

    fn count_look(&mut self, line: &Line) {
        add(&mut self.met, &looks(line));
        *cell(&mut self.looks, line.before) += 1;
        let absolute = line.before.mouse.mode.is_absolute();
        self.lent[usize::from(absolute)][line.lent.min(8)] += 1;
        if line.taken() {
            self.shown[usize::from(line.before.mouse.latches)] += 1;
        }
        if line.before.command.is_half_received() {
            self.within[0].insert(line.before.command.code());
        }
    }

    fn count_clearing(&mut self, line: &Line) {
        add(&mut self.met, &clearings(line));
        *cell(&mut self.clearings, line.before) += 1;
        if line.before.mouse.mode.is_absolute() {
            self.emptied[usize::from(line.before.mouse.latches)] += 1;
        }
        if line.before.command.is_half_received() {
            self.within[1].insert(line.before.command.code());
        }
    }
}

fn cell<'a>(states: &'a mut States, state: &State) -> &'a mut u64 {
    let (mouse, sticks) = mode_numbers(state);
    let by_pause = &mut states[mouse][sticks][usize::from(state.paused)];
    let joystick = state.port0 == Role::Joystick;
    &mut by_pause[usize::from(state.mouse.on)][usize::from(joystick)]
}

fn looks(line: &Line) -> [(&'static str, bool); 17] {
    let State { mouse, queue, .. } = line.before;
    let (given, latches) = (line.taken(), mouse.latches != 0);
    let (refused_4, refused_7) = (line.answer == 4, line.answer == 7);
    let maximum = match mouse.mode {
        MouseMode::Absolute { maximum } => maximum,
        _ => [0, 0],
    };
    let waiting = !queue.bytes().is_empty();
    let full = queue.bytes().len() == QUEUE_ROOM;
    let (moved, held) = (mouse.coordinates != [0, 0], mouse.held != [0, 0]);
    let seen = given && latches;
    [
        ("a look with 7", refused_7 && line.lent >= REPORT),
        (
            "a look with 7, a short buffer",
            refused_7 && line.lent < REPORT,
        ),
        ("a look with 7, latches set", refused_7 && latches),
        ("a look with 7, bytes in the queue", refused_7 && waiting),
        ("a look with 4, latches set", refused_4 && latches),
        ("a look with 4, motion held", refused_4 && held),
        (
            "a look with 4 for one byte",
            refused_4 && line.lent + 1 == REPORT,
        ),
        ("a look fills the buffer", given && line.lent == REPORT),
        ("a look, a byte to spare", given && line.lent == REPORT + 1),
        ("latches seen with bytes in the queue", seen && waiting),
        ("latches seen with a full queue", seen && full),
        ("latches seen with the mouse off", seen && !mouse.on),
        (
            "latches seen with port 0 a joystick",
            seen && line.before.port0 == Role::Joystick,
        ),
        (
            "latches seen in a monitoring mode",
            seen && line.before.joysticks.is_monitoring(),
        ),
        ("a look with held motion", given && held),
        (
            "a look with high bytes",
            given && mouse.coordinates.iter().all(|&c| c > 255),
        ),
        (
            "a look at the maximum",
            given && moved && mouse.coordinates == maximum,
        ),
    ]
}

/// All but the first are clearings of latches that are set.
fn clearings(line: &Line) -> [(&'static str, bool); 8] {
    let State { mouse, queue, .. } = line.before;
    let emptied = mouse.latches != 0;
    let outside = !mouse.mode.is_absolute();
    [
        ("a clearing of none", !emptied),
        ("a clearing outside absolute mode", emptied && outside),
        ("a clearing, a short buffer", emptied && line.lent < REPORT),
        (
            "a clearing with bytes in the queue",
            emptied && !queue.bytes().is_empty(),
        ),
        (
            "a clearing with a button down",
            emptied && mouse.levels != 0,
        ),
        (
            "a clearing with held motion",
            emptied && mouse.held != [0, 0],
        ),
        (
            "a clearing with coordinates",
            emptied && mouse.coordinates != [0, 0],
        ),
        (
            "a clearing while the mouse is not live",
            emptied && !line.before.mouse_is_live(),
        ),
    ]
}

fn misspelt(line: &Line) -> [(&'static str, bool); 2] {
    let has = |word: &[u8]| line.text.windows(word.len()).any(|part| part == word);
    [
        (
            "no look",
            has(b"look") && line.before.mouse.mode.is_absolute(),
        ),
        (
            "no clearing",
            has(b"clear") && line.before.mouse.latches != 0,
        ),
    ]
}

impl fmt::Display for LookCoverage {
    fn fmt(&self, f: &mut fmt::Formatter<'_>) -> fmt::Result {
        writeln!(f, "looks and clearings:")?;
        for (what, count) in &self.met {
            writeln!(f, "  {what}: {count}")?;
        }
        writeln!(
            f,
            "latches shown: {:?}, emptied: {:?}",
            self.shown, self.emptied
        )?;
        let [outside, absolute] = self.lent;
        writeln!(
            f,
            "looks by the buffer: {outside:?} outside absolute mode, {absolute:?} in it"
        )?;
        let [looked, cleared] = &self.within;
        writeln!(
            f,
            "within commands: looks {looked:02X?}, clearings {cleared:02X?}"
        )?;
        writeln!(
            f,
            "modes: looks and clearings by pause, mouse off or on, and port 0"
        )?;
        for (mouse, name) in MOUSE_MODES.iter().enumerate() {
            for (sticks, with) in JOYSTICK_MODES.iter().enumerate() {
                let (looks, clearings) = (self.looks[mouse][sticks], self.clearings[mouse][sticks]);
                writeln!(f, "  {name}, {with}: {looks:?}, {clearings:?}")?;
            }
        }
        Ok(())
    }
}
