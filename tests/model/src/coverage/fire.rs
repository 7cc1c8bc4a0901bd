//! What a session does with the buttons while the mouse is off: request A4.

use std::fmt;

use super::{add, mode_numbers, Counts, Line, JOYSTICK_MODES, MOUSE_MODES};
use crate::controller::Input;
use crate::joysticks::TRIGGER;
use crate::limits::QUEUE_ROOM;
use crate::mouse::Button;
use crate::state::{JoystickMode, Role, State};

#[derive(Default)]
pub struct FireCoverage {
    /// How often each thing was met, by what it is in plain words.
    pub met: Counts,
    /// The same, of what only short buffers and loaded states show.
    pub met_with_vectors: Counts,
    /// Changes of the right button that were taken with the mouse off and port 0
    /// a mouse, by mouse mode, button action, joystick mode, and joysticks off or
    /// on.
    pub modes: [[[[u64; 2]; 5]; 5]; 3],
    /// Changes of the left button with the mouse off and port 0 a mouse, by mouse
    /// mode and joystick mode.
    pub left_modes: [[u64; 5]; 3],
    /// The press or release that was refused and has not come again, and the
    /// answer to it.
    refused: Option<(bool, usize)>,
    /// Whether the line before was a load that was taken.
    loaded: bool,
}

impl FireCoverage {
    /// A session begins: nothing was refused or loaded in it yet.
    pub fn start_session(&mut self) {
        self.refused = None;
        self.loaded = false;
    }

    pub fn count(&mut self, line: &Line) {
        if self.loaded {
            self.refused = None;
        }
        match line.input {
            Some(Input::Button { button, down }) if !line.before.mouse.on => {
                let changed = line.before.mouse.is_down(button) != down;
                match button {
                    Button::Right if changed => self.count_right(line, down),
                    Button::Right => add(&mut self.met, &unchanged(line)),
                    Button::Left if changed => self.count_left(line),
                    Button::Left => {}
                }
            }
            Some(Input::Button {
                button: Button::Right,
                ..
            }) => self.refused = None,
            Some(Input::Stick { stick: 1, .. }) => add(&mut self.met, &sticks(line)),
            Some(Input::Host(byte)) => {
                if byte == 0x01 && line.is_reset() && line.taken() {
                    self.refused = None;
                }
                add(&mut self.met, &commands(line, byte));
            }
            _ => {}
        }
        self.loaded = line.text.starts_with(b"?\tload\t") && line.taken();
    }

    /// A right button whose level is to change, with the mouse off.
    fn count_right(&mut self, line: &Line, down: bool) {
        let State { mouse, port0, .. } = line.before;
        let (mode, sticks) = mode_numbers(line.before);
        if *port0 == Role::Mouse && line.taken() {
            let by_action = &mut self.modes[mode][usize::from(mouse.action)];
            by_action[sticks][usize::from(line.before.joysticks.on)] += 1;
        }
        add(&mut self.met, &level_alone(line));
        let refused = self.refused.take();
        if !fires(line.before) {
            return;
        }
        let again = |answer| line.taken() && refused == Some((down, answer));
        let after_2 = [("taken after a refusal with 2", again(2))];
        let with_vectors = [
            ("taken after a refusal with 4", again(4)),
            ("right after a load", self.loaded),
        ];
        add(&mut self.met, &shots(line));
        add(&mut self.met, &queued_shots(line, down));
        add(&mut self.met, &after_2);
        add(&mut self.met_with_vectors, &shots_and_room(line, down));
        add(&mut self.met_with_vectors, &with_vectors);
        self.refused = (!line.taken()).then_some((down, line.answer));
    }

    /// A left button whose level changes, with the mouse off.
    fn count_left(&mut self, line: &Line) {
        let (mode, sticks) = mode_numbers(line.before);
        if line.before.port0 == Role::Mouse {
            self.left_modes[mode][sticks] += 1;
        }
        add(&mut self.met, &left(line));
    }
}

/// "With the mouse off, port 0 a mouse and no monitoring mode"
fn fires(state: &State) -> bool {
    state.is_fire_button(Button::Right)
}

/// Whether a changed stick 1 sends a packet, and whether a key.
fn sends(state: &State) -> (bool, bool) {
    let joysticks = &state.joysticks;
    let keycode = matches!(joysticks.mode, JoystickMode::Keycode(_));
    (joysticks.tells_changes(), joysticks.on && keycode)
}

/// How many bytes of the queue are free, if output is paused.
fn free(state: &State) -> Option<usize> {
    let waiting = state.queue.bytes().len();
    state.paused.then_some(QUEUE_ROOM - waiting)
}

/// Whether the line changed what is stored of the sticks.
fn stores(line: &Line) -> bool {
    line.before.joysticks.sticks != line.after.joysticks.sticks
}

fn trigger_is_set(state: &State) -> bool {
    state.joysticks.sticks[1] & TRIGGER != 0
}

/// What is handled as a stick 1 event and goes out at once, or is stored.
fn shots(line: &Line) -> [(&'static str, bool); 7] {
    let (before, taken) = (line.before, line.taken());
    let (packet, key) = sends(before);
    let joysticks = &before.joysticks;
    let stored = stores(line);
    let interrogation = joysticks.on && joysticks.mode == JoystickMode::Interrogation;
    let position = joysticks.sticks[1] % 16 != 0;
    let silent = taken && !stored && (packet || key);
    [
        ("a packet with a position", line.written == 2 && position),
        (
            "a packet without a position",
            line.written == 2 && !position,
        ),
        ("a key", key && line.written == 1),
        ("stored in interrogation mode", interrogation && stored),
        ("stored with joysticks off", !joysticks.on && stored),
        ("the trigger is so already", silent),
        (
            "within a command",
            taken && before.command.is_half_received(),
        ),
    ]
}

/// The same while paused.
fn queued_shots(line: &Line, down: bool) -> [(&'static str, bool); 12] {
    let [before, after] = [line.before, line.after].map(|state| state.queue.bytes().len());
    let paused = line.before.paused;
    let (packet, key) = sends(line.before);
    let refused = line.answer == 2;
    let full = free(line.before) == Some(0);
    let one_free = free(line.before) == Some(1);
    let fills = paused && !full && after == QUEUE_ROOM;
    let stored = stores(line);
    [
        ("a packet queued", after == before + 2),
        ("a key queued", after == before + 1),
        ("stored while paused", paused && stored && after == before),
        (
            "a packet refused with 2, none free",
            refused && packet && full,
        ),
        ("a packet refused with 2, one free", refused && one_free),
        ("a packet fills the queue", fills && packet),
        ("a key refused with 2", refused && key),
        ("a key fills the queue", fills && key),
        ("stored, none free", full && stored),
        (
            "the trigger is so already, none free",
            full && line.taken() && !stored,
        ),
        ("press refused with 2", refused && down),
        ("release refused with 2", refused && !down),
    ]
}

/// What only a short buffer shows.
fn shots_and_room(line: &Line, down: bool) -> [(&'static str, bool); 8] {
    let (packet, key) = sends(line.before);
    let refused = line.answer == 4;
    let silent = line.taken() && !line.before.paused && line.written == 0;
    let fills = line.written > 0 && line.written == line.lent;
    [
        (
            "a packet refused with 4, no buffer",
            refused && packet && line.lent == 0,
        ),
        (
            "a packet refused with 4, a buffer of 1",
            refused && line.lent == 1,
        ),
        ("a key refused with 4", refused && key),
        ("a packet fills the buffer", fills && packet),
        ("a key fills the buffer", fills && key),
        (
            "stored, no buffer",
            silent && stores(line) && line.lent == 0,
        ),
        ("press refused with 4", refused && down),
        ("release refused with 4", refused && !down),
    ]
}

/// Where a changed right button is no trigger.
fn level_alone(line: &Line) -> [(&'static str, bool); 3] {
    let State {
        joysticks, port0, ..
    } = line.before;
    let monitoring = joysticks.is_monitoring();
    let fire = joysticks.mode == JoystickMode::FireMonitoring;
    let mouse = *port0 == Role::Mouse;
    [
        ("level alone, port 0 a joystick", !mouse && !monitoring),
        ("level alone, monitoring", mouse && monitoring && !fire),
        ("level alone, fire monitoring", mouse && fire),
    ]
}

fn unchanged(line: &Line) -> [(&'static str, bool); 2] {
    let (fires, down) = (fires(line.before), line.before.mouse.is_down(Button::Right));
    let differs = down != trigger_is_set(line.before);
    [
        ("unchanged", fires),
        ("unchanged, the trigger is not so", fires && differs),
    ]
}

fn left(line: &Line) -> [(&'static str, bool); 4] {
    let fires = fires(line.before);
    let full = free(line.before) == Some(0);
    let (packet, key) = sends(line.before);
    [
        ("left, event mode", fires && packet),
        ("left, keycode mode", fires && key),
        ("left, paused", fires && line.before.paused),
        ("left, none free", fires && full),
    ]
}

/// A stick 1 event while the button is down and fires.
fn sticks(line: &Line) -> [(&'static str, bool); 1] {
    let down = fires(line.before) && line.before.mouse.is_down(Button::Right);
    let lets_go = trigger_is_set(line.before) && !trigger_is_set(line.after);
    [("the stick lets go, the button is down", down && lets_go)]
}

fn commands(line: &Line, byte: u8) -> [(&'static str, bool); 4] {
    let (before, after) = (line.before, line.after);
    let down = before.mouse.is_down(Button::Right);
    let set = trigger_is_set(before);
    let off = before.mouse.on && !after.mouse.on;
    let on = !before.mouse.on && after.mouse.on;
    let asks = byte == 0x16 && !before.command.is_half_received() && line.written > 0;
    [
        ("mouse off, the button is down", off && down && !set),
        ("mouse off, the trigger is set", off && !down && set),
        ("mouse on, the trigger is set", on && trigger_is_set(after)),
        ("asked, the trigger is set", asks && fires(before) && set),
    ]
}

impl fmt::Display for FireCoverage {
    fn fmt(&self, f: &mut fmt::Formatter<'_>) -> fmt::Result {
        writeln!(f, "buttons with the mouse off:")?;
        for (what, count) in self.met.iter().chain(&self.met_with_vectors) {
            writeln!(f, "  {what}: {count}")?;
        }
        writeln!(f, "modes: right buttons by action, joysticks off and on")?;
        for (mouse, by_action) in MOUSE_MODES.iter().zip(&self.modes) {
            for (place, sticks) in JOYSTICK_MODES.iter().enumerate() {
                let counts = by_action.map(|by_sticks| by_sticks[place]);
                writeln!(f, "  {mouse}, {sticks}: {counts:?}")?;
            }
        }
        writeln!(f, "modes: left buttons by joystick mode")?;
        for (mouse, by_sticks) in MOUSE_MODES.iter().zip(&self.left_modes) {
            writeln!(f, "  {mouse}: {by_sticks:?}")?;
        }
        Ok(())
    }
}
