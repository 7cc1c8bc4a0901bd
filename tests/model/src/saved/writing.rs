//! Writing a state as a line.

use crate::clock::Clock;
use crate::command::{Command, MOST_PARAMETERS};
use crate::joysticks::Joysticks;
use crate::keys::{Keys, CODES};
use crate::mouse::{Button, Mouse};
use crate::rules::Rules;
use crate::state::{JoystickMode, MouseMode, Role, State, Velocity, X, Y};
use crate::text::{push_decimal, push_hex};

/// Adds the line of a state to `out`, its line feed too. "each state within
/// document 01's ranges has one line"
#[inline(never)]
pub fn write(state: &State, out: &mut Vec<u8>) {
    let State {
        rules,
        mouse,
        joysticks,
        ..
    } = state;
    let mut line = Line { out };
    line.mouse_settings(mouse);
    line.joystick_settings(joysticks);
    line.choice(state.port0 == Role::Joystick);
    line.choice(state.paused);
    line.mouse_rest(mouse, rules);
    line.joysticks_rest(joysticks, rules);
    line.clock(&state.clock);
    line.command(&rules.saved_command(state.command));
    line.map(&state.keys, rules);
    line.queue(state.queue.bytes());
}

/// A line as it grows: after each number comes a tab.
struct Line<'a> {
    out: &'a mut Vec<u8>,
}

impl Line<'_> {
    /// "decimal numbers without leading zeros"
    fn number(&mut self, number: impl Into<u64>) {
        push_decimal(number.into(), self.out);
        self.out.push(b'\t');
    }

    /// "X before Y"
    fn pair<T: Into<u64> + Copy>(&mut self, pair: [T; 2]) {
        self.number(pair[X]);
        self.number(pair[Y]);
    }

    fn signed(&mut self, number: i32) {
        if number < 0 {
            self.out.push(b'-');
        }
        self.number(number.unsigned_abs());
    }

    /// "off 0, on 1; origin top 0, bottom 1; paused or down 1"
    fn choice(&mut self, choice: bool) {
        self.number(u8::from(choice));
    }

    /// Fields 1 to 12. "each mode's numbers have their own fields"; "Unused
    /// fields are written as 0."
    fn mouse_settings(&mut self, mouse: &Mouse) {
        let (place, maximum, delta) = match mouse.mode {
            MouseMode::Relative => (0, [0, 0], [0, 0]),
            MouseMode::Absolute { maximum } => (1, maximum, [0, 0]),
            MouseMode::Keycode { delta } => (2, [0, 0], delta),
        };
        self.number(place as u8);
        self.pair(maximum);
        self.pair(delta);
        self.number(mouse.action);
        self.pair(mouse.threshold);
        self.pair(mouse.scale);
        self.choice(mouse.origin_bottom);
        self.choice(mouse.on);
    }

    /// Fields 13 to 21.
    fn joystick_settings(&mut self, joysticks: &Joysticks) {
        let (place, rate, velocity) = match joysticks.mode {
            JoystickMode::Event => (0, 0, Velocity::NONE),
            JoystickMode::Interrogation => (1, 0, Velocity::NONE),
            JoystickMode::Monitoring { rate } => (2, rate, Velocity::NONE),
            JoystickMode::FireMonitoring => (3, 0, Velocity::NONE),
            JoystickMode::Keycode(velocity) => (4, 0, velocity),
        };
        self.number(place as u8);
        self.number(rate);
        self.pair(velocity.breakpoint);
        self.pair(velocity.before);
        self.pair(velocity.after);
        self.choice(joysticks.on);
    }

    /// Fields 24 to 30. "left before right"; "Latches and sticks are their
    /// reported bytes"
    fn mouse_rest(&mut self, mouse: &Mouse, rules: &Rules) {
        self.pair(mouse.coordinates);
        for axis in [X, Y] {
            self.signed(mouse.held[axis] + rules.held_origin());
        }
        for button in [Button::Left, Button::Right] {
            self.choice(mouse.is_down(button));
        }
        self.number(rules.saved_latches(mouse.latches));
    }

    /// Fields 31 to 39. "X's age and wait before Y's"; "samples their count and
    /// then their bits as one number, last in bit 0"
    fn joysticks_rest(&mut self, joysticks: &Joysticks, rules: &Rules) {
        self.pair(joysticks.sticks);
        for axis in [X, Y] {
            let counts = [joysticks.age[axis], joysticks.wait[axis]];
            self.pair(rules.saved_counts(counts));
        }
        let (bits, count) = (joysticks.samples, joysticks.sample_count);
        self.number(joysticks.ticks);
        self.number(count);
        self.number(rules.saved_samples(bits, count));
    }

    /// Fields 40 to 46. "the clock year to hundredths, not BCD"
    fn clock(&mut self, clock: &Clock) {
        self.number(clock.year);
        self.number(clock.month);
        self.number(clock.day);
        self.number(clock.hour);
        self.number(clock.minute);
        self.number(clock.second);
        self.number(clock.hundredth);
    }

    /// Fields 47 to 55. "A half-received command is its code, how many parameter
    /// bytes have come, those bytes in six fields, and the data bytes of 0x20
    /// still to come."
    fn command(&mut self, command: &Command) {
        self.number(command.code());
        self.number(command.parameters_come());
        for index in 0..MOST_PARAMETERS {
            self.number(command.parameter(index));
        }
        self.number(command.data_to_come());
    }

    /// Field 56. "the map (114 digits 0 or 1, key 1 first)"
    fn map(&mut self, keys: &Keys, rules: &Rules) {
        let digits = CODES.map(|code| b'0' + u8::from(keys.is_down(rules.saved_key(code))));
        self.out.extend(digits);
        self.out.push(b'\t');
    }

    /// Field 57, and the end. "the queue (hex, `-` if empty)", "then a line feed"
    fn queue(&mut self, bytes: &[u8]) {
        if bytes.is_empty() {
            self.out.push(b'-');
        }
        push_hex(bytes, self.out);
        self.out.push(b'\n');
    }
}
