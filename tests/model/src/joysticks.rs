//! "Sticks, samples": both sticks, the repeat counts, monitoring.

use crate::rules::Rules;
use crate::state::{acting, arrow, JoystickMode, Role, Velocity, X, Y};

/// "both stop at 2,551"
pub const LONGEST_COUNT: u16 = 2551;
/// "samples (0 to 7 of them)"
pub const MOST_SAMPLES: u8 = 7;
/// The trigger in a stick's byte.
pub const TRIGGER: u8 = 0x80;

#[derive(Clone, Copy, Debug, PartialEq, Eq)]
pub struct Joysticks {
    pub mode: JoystickMode,
    pub on: bool,
    /// The byte of each stick: "128·trigger + position".
    pub sticks: [u8; 2],
    pub age: [u16; 2],
    pub wait: [u16; 2],
    /// "monitoring ticks (below the rate as it acts)"
    pub ticks: u8,
    /// "samples (0 to 7 of them)", the last in the lowest bit.
    pub samples: u8,
    pub sample_count: u8,
}

impl Joysticks {
    /// "event mode, joysticks on"
    pub const POWER_UP: Joysticks = Joysticks {
        mode: JoystickMode::Event,
        on: true,
        sticks: [0, 0],
        age: [0, 0],
        wait: [0, 0],
        ticks: 0,
        samples: 0,
        sample_count: 0,
    };

    /// "the monitoring modes are those of 0x17 and 0x18"
    pub fn is_monitoring(&self) -> bool {
        matches!(
            self.mode,
            JoystickMode::Monitoring { .. } | JoystickMode::FireMonitoring
        )
    }

    /// "0x14, 0x15, 0x17, 0x18, 0x19 turn joysticks on and clear repeat counts,
    /// monitoring ticks and samples"
    pub fn enter(&mut self, mode: JoystickMode) {
        *self = Joysticks {
            mode,
            sticks: self.sticks,
            ..Joysticks::POWER_UP
        };
    }

    /// "from a monitoring mode, go to event mode"; "leaving a monitoring mode
    /// by another command clears the last two", ticks and samples.
    pub fn leave_monitoring(&mut self) {
        if self.is_monitoring() {
            self.mode = JoystickMode::Event;
            self.ticks = 0;
            self.samples = 0;
            self.sample_count = 0;
        }
    }

    /// "0x1A turns joysticks off and leaves monitoring for event mode."
    pub fn turn_off(&mut self) {
        self.on = false;
        self.leave_monitoring();
    }

    /// "Event mode, joysticks on": a stick is told as it changes.
    pub fn tells_changes(&self) -> bool {
        self.on && self.mode == JoystickMode::Event
    }

    /// "0x16 outside event and interrogation mode or with joysticks off" is
    /// ignored.
    pub fn answers_interrogation(&self) -> bool {
        self.on && matches!(self.mode, JoystickMode::Event | JoystickMode::Interrogation)
    }

    /// "A stick event always stores its byte"
    pub fn stick(&mut self, stick: usize, byte: u8, port0: Role, rules: &Rules, out: &mut Vec<u8>) {
        let before = std::mem::replace(&mut self.sticks[stick], byte);
        let connected = stick == 1 || port0 == Role::Joystick;
        if !self.on || !connected {
            return;
        }
        match self.mode {
            JoystickMode::Event if byte != before => {
                out.extend_from_slice(&[0xFE + stick as u8, byte]);
            }
            JoystickMode::Keycode(_) => self.stick_keys(stick, before, byte, rules, out),
            _ => {}
        }
    }

    /// "Horizontal comes first, trigger last."
    fn stick_keys(&mut self, stick: usize, before: u8, byte: u8, rules: &Rules, out: &mut Vec<u8>) {
        if stick == 0 {
            for axis in [X, Y] {
                self.turn(
                    axis,
                    direction(before, axis),
                    direction(byte, axis),
                    rules,
                    out,
                );
            }
        }
        if (before ^ byte) & TRIGGER != 0 {
            // "a changed trigger is a key, 0x74 for stick 0, 0x75 for stick 1"
            out.push(rules.key(0x74 + stick as u8, byte & TRIGGER != 0));
        }
    }

    /// "When an axis's direction changes, its age and wait become 0, and a
    /// direction other than none gives a pair"
    fn turn(&mut self, axis: usize, before: i32, now: i32, rules: &Rules, out: &mut Vec<u8>) {
        if now == before {
            return;
        }
        self.age[axis] = 0;
        self.wait[axis] = 0;
        if now != 0 {
            rules.push_pair(arrow(axis, now), out);
        }
    }

    /// A tick that comes while not paused.
    pub fn tick(&mut self, port0: Role, rules: &Rules, out: &mut Vec<u8>) {
        match self.mode {
            JoystickMode::Monitoring { rate } => self.monitor(rate, out),
            JoystickMode::Keycode(velocity) if self.on && port0 == Role::Joystick => {
                for axis in [X, Y] {
                    self.repeat(axis, &velocity, rules, out);
                }
            }
            _ => {} // "otherwise the counts stand still"
        }
    }

    /// "every rate ticks 2·trigger0 + trigger1, then 16·position0 + position1"
    fn monitor(&mut self, rate: u8, out: &mut Vec<u8>) {
        self.ticks += 1;
        if i32::from(self.ticks) < acting(rate) {
            return;
        }
        self.ticks = 0;
        let [first, second] = self.sticks;
        let triggers = 2 * (first / TRIGGER) + second / TRIGGER;
        out.extend_from_slice(&[triggers, 16 * (first % 16) + second % 16]);
    }

    /// "Each tick first adds one to age and wait of an axis that has a
    /// direction; [...] an interval of 0 never repeats; a wait at or above it
    /// gives a pair and becomes 0."
    fn repeat(&mut self, axis: usize, velocity: &Velocity, rules: &Rules, out: &mut Vec<u8>) {
        let direction = direction(self.sticks[0], axis);
        if direction == 0 {
            return;
        }
        self.age[axis] = (self.age[axis] + 1).min(LONGEST_COUNT);
        self.wait[axis] = (self.wait[axis] + 1).min(LONGEST_COUNT);
        let interval = velocity.interval(axis, self.age[axis]);
        if interval != 0 && self.wait[axis] >= interval {
            self.wait[axis] = 0;
            rules.push_pair(arrow(axis, direction), out);
        }
    }

    /// "Fire: eight samples a byte, first in the top bit; samples elsewhere do
    /// nothing."
    pub fn sample(&mut self, bit: u8, out: &mut Vec<u8>) {
        if self.mode != JoystickMode::FireMonitoring {
            return;
        }
        self.samples = 2 * self.samples + bit;
        self.sample_count += 1;
        if self.sample_count > MOST_SAMPLES {
            out.push(self.samples);
            self.samples = 0;
            self.sample_count = 0;
        }
    }
}

impl Velocity {
    /// Where no mode has any.
    pub const NONE: Velocity = Velocity {
        breakpoint: [0, 0],
        before: [0, 0],
        after: [0, 0],
    };

    /// "The interval is 10·T while R is not 0 and age is at most 10·R, else
    /// 10·V"
    fn interval(&self, axis: usize, age: u16) -> u16 {
        let breakpoint = 10 * u16::from(self.breakpoint[axis]);
        if breakpoint != 0 && age <= breakpoint {
            10 * u16::from(self.before[axis])
        } else {
            10 * u16::from(self.after[axis])
        }
    }
}

/// The direction of an axis: 1 right or down, -1 left or up, 0 none.
/// "bits 0 to 3 of the position are up, down, left, right"; "opposite closures
/// cancel to none"
fn direction(byte: u8, axis: usize) -> i32 {
    let closed = |bit: u8| i32::from(byte >> bit & 1);
    if axis == X {
        closed(3) - closed(2)
    } else {
        closed(1) - closed(0)
    }
}
