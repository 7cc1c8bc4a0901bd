//! The range of each number of a line, given its state; by a table of its own,
//! and not by the reader's steps.

use crate::command::Command;
use crate::joysticks::LONGEST_COUNT;
use crate::limits::HELD_LIMIT;
use crate::rules::Rules;
use crate::saved::NUMBERS;
use crate::state::{acting, JoystickMode, MouseMode, State};

pub struct Ranges {
    /// First and last, by the place from 0.
    of: Vec<(i32, i32)>,
}

impl Ranges {
    /// Each place, and the number after its last. Between the two ranges of a
    /// stick there are more numbers that are one too far.
    pub fn above(&self) -> Vec<(usize, i32)> {
        let ranges = self.of.iter().enumerate();
        let mut above: Vec<(usize, i32)> =
            ranges.map(|(place, range)| (place, range.1 + 1)).collect();
        above.extend([(30, 16), (31, 16)]);
        above
    }

    /// Each place, and the number before its first.
    pub fn below(&self) -> Vec<(usize, i32)> {
        let ranges = self.of.iter().enumerate();
        let mut below: Vec<(usize, i32)> =
            ranges.map(|(place, range)| (place, range.0 - 1)).collect();
        below.extend([(30, 127), (31, 127)]);
        below
    }

    /// The places that this state does not use.
    pub fn unused(&self) -> Vec<usize> {
        let places = 0..self.of.len();
        places.filter(|&place| self.of[place] == (0, 0)).collect()
    }
}

pub fn ranges(state: &State) -> Ranges {
    let mut of = vec![(0, 2)];
    let (absolute, keycode) = match state.mouse.mode {
        MouseMode::Relative => (0, 0),
        MouseMode::Absolute { .. } => (65_535, 0),
        MouseMode::Keycode { .. } => (0, 255),
    };
    of.extend([(0, absolute), (0, absolute), (0, keycode), (0, keycode)]);
    of.extend([
        (0, 4),
        (0, 255),
        (0, 255),
        (0, 255),
        (0, 255),
        (0, 1),
        (0, 1),
        (0, 4),
    ]);
    let (rate, velocity, ticks, samples) = match state.joysticks.mode {
        JoystickMode::Event | JoystickMode::Interrogation => (0, 0, 0, 0),
        JoystickMode::Monitoring { rate } => (255, 0, acting(rate) - 1, 0),
        JoystickMode::FireMonitoring => (0, 0, 0, 7),
        JoystickMode::Keycode(_) => (0, 255, 0, 0),
    };
    of.push((0, rate));
    of.extend([(0, velocity); 6]);
    of.extend([(0, 1), (0, 1), (0, 1)]);
    of.extend(coordinates(state));
    of.extend([held(state); 2]);
    of.extend([(0, 1), (0, 1), (0, 15), (0, 143), (0, 143)]);
    of.extend([(0, LONGEST_COUNT.into()); 4]);
    of.extend([(0, ticks), (0, samples)]);
    of.push((0, (1 << state.joysticks.sample_count) - 1));
    let last_day = state.clock.last_day(&Rules::DOCUMENT).into();
    of.extend([
        (0, 99),
        (1, 12),
        (1, last_day),
        (0, 23),
        (0, 59),
        (0, 59),
        (0, 99),
    ]);
    of.extend(command(&state.command));
    assert_eq!(of.len(), NUMBERS);
    Ranges { of }
}

fn coordinates(state: &State) -> [(i32, i32); 2] {
    match state.mouse.mode {
        MouseMode::Absolute { maximum } => maximum.map(|last| (0, last.into())),
        _ => [(0, 0); 2],
    }
}

fn held(state: &State) -> (i32, i32) {
    let absolute = state.mouse.mode.is_absolute();
    match state.paused && state.mouse_is_live() && !absolute {
        true => (-HELD_LIMIT, HELD_LIMIT),
        false => (-254, 254),
    }
}

/// The code, how many parameters have come, those, and the data to come.
fn command(command: &Command) -> Vec<(i32, i32)> {
    let (code, come) = (command.code(), i32::from(command.parameters_come()));
    let most = Command::most_parameters_come(code).unwrap_or(0);
    let loads = command.data_to_come() > 0;
    let mut of = vec![(0, 0x80), (0, most.into())];
    of.extend((0..6).map(|number| match number < come {
        true => (i32::from(loads && number == 2), 255),
        false => (0, 0),
    }));
    let third = i32::from(command.parameter(2));
    of.push(if loads { (1, third) } else { (0, 0) });
    of
}
