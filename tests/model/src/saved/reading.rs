//! Reading a line as a state.

use super::fields::{hex_bytes, Fields};
use crate::clock::Clock;
use crate::command::{Command, MOST_PARAMETERS};
use crate::joysticks::{Joysticks, LONGEST_COUNT, MOST_SAMPLES};
use crate::keys::{Keys, COUNT};
use crate::limits::QUEUE_ROOM;
use crate::mouse::{Button, Mouse, KEYS};
use crate::rules::{Rules, SavedFault};
use crate::state::{acting, JoystickMode, MouseMode, Queue, Role, State, Velocity, X, Y};

/// "held motion is -254 to 254"
const HELD: i32 = 254;

/// The state that writes this line; none if "the line is one that no such state
/// writes". The line feed belongs to the line.
#[inline(never)]
pub fn read(line: &[u8], rules: Rules) -> Option<State> {
    let line = match line {
        [line @ .., b'\n'] => line,
        line if rules.has_fault(SavedFault::NoLineFeed) => line,
        _ => return None,
    };
    let mut reader = Reader {
        fields: Fields::of(line),
        rules,
    };
    reader.state()
}

struct Reader<'a> {
    fields: Fields<'a>,
    rules: Rules,
}

impl Reader<'_> {
    /// The fields in order: what bounds a field stands before it.
    fn state(&mut self) -> Option<State> {
        let mut state = State::power_up(self.rules);
        state.mouse = self.mouse_settings()?;
        state.joysticks = self.joystick_settings()?;
        state.port0 = match self.fields.choice()? {
            false => Role::Mouse,
            true => Role::Joystick,
        };
        state.paused = self.fields.choice()?;
        let held = self.held_limit(&state);
        self.mouse_rest(&mut state.mouse, held)?;
        self.joysticks_rest(&mut state.joysticks)?;
        state.clock = self.clock()?;
        state.command = self.command()?;
        state.keys = self.map()?;
        state.queue = self.queue(state.paused)?;
        self.fields.are_all_read().then_some(state)
    }

    /// Whether a field must be within the range of one that is in use.
    fn is_used(&self, used: bool) -> bool {
        used || self.rules.has_fault(SavedFault::Unused)
    }

    /// Fields 1 to 12. "a setting's numbers are those that its command's bytes
    /// can carry"
    fn mouse_settings(&mut self) -> Option<Mouse> {
        let place = self.fields.at_most(2)?;
        let maximum = self.maximum(place == 1)?;
        let delta = self.fields.bytes(self.is_used(place == 2))?;
        Some(Mouse {
            mode: match place {
                0 => MouseMode::Relative,
                1 => MouseMode::Absolute { maximum },
                _ => MouseMode::Keycode { delta },
            },
            action: self.fields.at_most(KEYS.into())? as u8,
            threshold: self.fields.bytes(true)?,
            scale: self.fields.bytes(true)?,
            origin_bottom: self.fields.choice()?,
            on: self.fields.choice()?,
            ..Mouse::POWER_UP
        })
    }

    fn maximum(&mut self, absolute: bool) -> Option<[u16; 2]> {
        let last = if self.is_used(absolute) { u16::MAX } else { 0 };
        self.words([last, last])
    }

    fn words(&mut self, last: [u16; 2]) -> Option<[u16; 2]> {
        let x = self.fields.at_most(last[X].into())?;
        let y = self.fields.at_most(last[Y].into())?;
        Some([x as u16, y as u16])
    }

    /// Fields 13 to 21.
    fn joystick_settings(&mut self) -> Option<Joysticks> {
        let place = self.fields.at_most(4)?;
        let rate = self.fields.byte(self.is_used(place == 2))?;
        let velocity = self.velocity(place == 4)?;
        Some(Joysticks {
            mode: match place {
                0 => JoystickMode::Event,
                1 => JoystickMode::Interrogation,
                2 => JoystickMode::Monitoring { rate },
                3 => JoystickMode::FireMonitoring,
                _ => JoystickMode::Keycode(velocity),
            },
            on: self.fields.choice()?,
            ..Joysticks::POWER_UP
        })
    }

    fn velocity(&mut self, keycode: bool) -> Option<Velocity> {
        let used = self.is_used(keycode);
        Some(Velocity {
            breakpoint: self.fields.bytes(used)?,
            before: self.fields.bytes(used)?,
            after: self.fields.bytes(used)?,
        })
    }

    /// "beyond that, to 2,032 either way, only while paused with the mouse live
    /// in relative or keycode mode"
    fn held_limit(&self, state: &State) -> i32 {
        let absolute = state.mouse.mode.is_absolute();
        let held_back = state.paused && state.mouse_is_live() && !absolute;
        if held_back || self.rules.has_fault(SavedFault::HeldBeyond) {
            self.rules.held_limit
        } else {
            HELD
        }
    }

    /// Fields 24 to 30.
    fn mouse_rest(&mut self, mouse: &mut Mouse, held: i32) -> Option<()> {
        mouse.coordinates = self.coordinates(mouse.mode)?;
        for axis in [X, Y] {
            mouse.held[axis] = self.held(held)?;
        }
        for button in [Button::Left, Button::Right] {
            if self.fields.choice()? {
                mouse.toggle(button);
            }
        }
        mouse.latches = self.rules.saved_latches(self.fields.at_most(15)? as u8);
        Some(())
    }

    /// "coordinates are 0 outside absolute mode"; "Coordinates never pass 0 or
    /// the maximum"
    fn coordinates(&mut self, mode: MouseMode) -> Option<[u16; 2]> {
        let last = match mode {
            MouseMode::Absolute { .. } if self.rules.has_fault(SavedFault::BeyondMaximum) => {
                [u16::MAX, u16::MAX]
            }
            MouseMode::Absolute { maximum } => maximum,
            _ => [0, 0],
        };
        self.words(last)
    }

    fn held(&mut self, limit: i32) -> Option<i32> {
        let origin = self.rules.held_origin();
        let held = self.fields.signed(limit + origin)? - origin;
        (-limit..=limit).contains(&held).then_some(held)
    }

    /// Fields 31 to 39.
    fn joysticks_rest(&mut self, joysticks: &mut Joysticks) -> Option<()> {
        joysticks.sticks = [self.stick()?, self.stick()?];
        for axis in [X, Y] {
            let counts = [self.count()?, self.count()?];
            [joysticks.age[axis], joysticks.wait[axis]] = self.rules.saved_counts(counts);
        }
        joysticks.ticks = self.ticks(joysticks.mode)?;
        let count = self.sample_count(joysticks.mode)?;
        let bits = self.fields.at_most((1 << count) - 1)? as u8;
        joysticks.sample_count = count;
        joysticks.samples = self.rules.saved_samples(bits, count);
        Some(())
    }

    /// "128·trigger + position", the position 0 to 15.
    fn stick(&mut self) -> Option<u8> {
        let byte = self.fields.byte(true)?;
        (byte % 128 <= 15).then_some(byte)
    }

    /// "repeat counts (age and wait of each axis, 0 to 2,551)"
    fn count(&mut self) -> Option<u16> {
        Some(self.fields.at_most(LONGEST_COUNT.into())? as u16)
    }

    /// "monitoring ticks (below the rate as it acts)"; they "are 0 outside their
    /// mode".
    fn ticks(&mut self, mode: JoystickMode) -> Option<u8> {
        let last = match mode {
            JoystickMode::Monitoring { rate } => acting(rate) as u32 - 1,
            _ => 0,
        };
        Some(self.fields.at_most(last)? as u8)
    }

    /// "samples (0 to 7 of them)"; they "are 0 outside their mode".
    fn sample_count(&mut self, mode: JoystickMode) -> Option<u8> {
        let last = match mode {
            JoystickMode::FireMonitoring => MOST_SAMPLES,
            _ => 0,
        };
        Some(self.fields.at_most(last.into())? as u8)
    }

    /// Fields 40 to 46. "the clock shows a date and time that exist"
    fn clock(&mut self) -> Option<Clock> {
        let mut clock = Clock::POWER_UP;
        clock.year = self.fields.at_most(99)? as u8;
        clock.month = self.fields.between(1, 12)? as u8;
        let last_day = self.rules.saved_last_day(&clock);
        clock.day = self.fields.between(1, last_day.into())? as u8;
        clock.hour = self.fields.at_most(23)? as u8;
        clock.minute = self.fields.at_most(59)? as u8;
        clock.second = self.fields.at_most(59)? as u8;
        clock.hundredth = self.fields.at_most(99)? as u8;
        Some(clock)
    }

    /// Fields 47 to 55. "a half-received command lacks at least one byte"
    fn command(&mut self) -> Option<Command> {
        let code = self.fields.byte(true)?;
        let most = Command::most_parameters_come(code)?;
        let come = self.fields.at_most(most.into())? as u8;
        let loads = Command::loads_data(code, come);
        let mut parameters = [0; MOST_PARAMETERS];
        for (index, parameter) in (0..).zip(&mut parameters) {
            // The third byte of a 0x20 says how many more there are.
            let first = loads && index == 2 && !self.rules.has_fault(SavedFault::NoData);
            let last = if index < come { u8::MAX } else { 0 };
            *parameter = self.fields.between(first.into(), last.into())? as u8;
        }
        let data = self.data_to_come(loads, parameters[2])?;
        Some(Command::half_received(code, come, parameters, data))
    }

    fn data_to_come(&mut self, loads: bool, third: u8) -> Option<u8> {
        match loads {
            true => Some(self.fields.between(third.min(1).into(), third.into())? as u8),
            false => self.fields.byte(false),
        }
    }

    /// Field 56.
    fn map(&mut self) -> Option<Keys> {
        let digits = self.fields.text()?;
        if digits.len() != COUNT {
            return None;
        }
        let mut keys = Keys::POWER_UP;
        for (code, digit) in (1..).zip(digits) {
            match digit {
                b'0' => {}
                b'1' => keys.follow(self.rules.saved_key(code), true),
                _ => return None,
            }
        }
        Some(keys)
    }

    /// Field 57. "the queue is empty unless paused"
    fn queue(&mut self, paused: bool) -> Option<Queue> {
        let mut queue = Queue::EMPTY;
        let field = self.fields.text()?;
        if field == b"-" {
            return Some(queue);
        }
        if !paused || field.is_empty() {
            return None;
        }
        for byte in hex_bytes(field) {
            if !queue.append(&[byte?], QUEUE_ROOM) && !self.rules.has_fault(SavedFault::QueueCut) {
                return None;
            }
        }
        Some(queue)
    }
}
