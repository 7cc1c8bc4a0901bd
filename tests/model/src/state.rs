//! "What the state holds."

use crate::clock::Clock;
use crate::command::Command;
use crate::joysticks::Joysticks;
use crate::keys::Keys;
use crate::limits::QUEUE_ROOM;
use crate::mouse::{Button, Mouse};
use crate::rules::Rules;

/// The index of the horizontal axis.
pub const X: usize = 0;
/// The index of the vertical axis.
pub const Y: usize = 1;

/// "A threshold, scale, delta or rate of 0 is kept as 0 and acts as 1."
pub fn acting(number: u8) -> i32 {
    i32::from(number.max(1))
}

/// The keys of an arrow: `ARROWS[axis][toward left or up]`.
/// "0x4D right, 0x4B left, 0x48 up, 0x50 down"
const ARROWS: [[u8; 2]; 2] = [[0x4D, 0x4B], [0x50, 0x48]];

/// The arrow of a direction: above 0 right or down, below 0 left or up.
pub fn arrow(axis: usize, direction: i32) -> u8 {
    ARROWS[axis][usize::from(direction < 0)]
}

#[derive(Clone, Copy, Debug, PartialEq, Eq)]
pub enum MouseMode {
    Relative,
    Absolute { maximum: [u16; 2] },
    Keycode { delta: [u8; 2] },
}

impl MouseMode {
    pub fn is_absolute(self) -> bool {
        matches!(self, MouseMode::Absolute { .. })
    }
}

#[derive(Clone, Copy, Debug, PartialEq, Eq)]
pub enum JoystickMode {
    Event,
    Interrogation,
    Monitoring { rate: u8 },
    FireMonitoring,
    Keycode(Velocity),
}

/// RX RY, TX TY and VX VY of the joystick keycode mode.
#[derive(Clone, Copy, Debug, PartialEq, Eq)]
pub struct Velocity {
    pub breakpoint: [u8; 2],
    pub before: [u8; 2],
    pub after: [u8; 2],
}

/// "port 0's role (mouse or joystick)"
#[derive(Clone, Copy, Debug, PartialEq, Eq)]
pub enum Role {
    Mouse,
    Joystick,
}

/// The bytes that wait for a resume, at most `QUEUE_ROOM` of them.
#[derive(Clone, Copy, Debug)]
pub struct Queue {
    bytes: [u8; QUEUE_ROOM],
    length: usize,
}

impl Queue {
    pub const EMPTY: Queue = Queue {
        bytes: [0; QUEUE_ROOM],
        length: 0,
    };

    pub fn bytes(&self) -> &[u8] {
        &self.bytes[..self.length]
    }

    pub fn clear(&mut self) {
        self.length = 0;
    }

    /// Takes all of `bytes` or, past `limit`, none: then false.
    pub fn append(&mut self, bytes: &[u8], limit: usize) -> bool {
        let length = self.length + bytes.len();
        if length > limit {
            return false;
        }
        self.bytes[self.length..length].copy_from_slice(bytes);
        self.length = length;
        true
    }
}

/// Two queues are the same when they hold the same bytes.
impl PartialEq for Queue {
    fn eq(&self, other: &Queue) -> bool {
        self.bytes() == other.bytes()
    }
}

/// The controller's state, and the rules by which it is stepped.
#[derive(Clone, Copy, Debug, PartialEq)]
pub struct State {
    pub rules: Rules,
    pub mouse: Mouse,
    pub joysticks: Joysticks,
    pub port0: Role,
    pub paused: bool,
    pub queue: Queue,
    pub clock: Clock,
    pub command: Command,
    pub keys: Keys,
}

impl State {
    pub fn power_up(rules: Rules) -> State {
        State {
            rules,
            mouse: Mouse::POWER_UP,
            joysticks: Joysticks::POWER_UP,
            port0: Role::Mouse,
            paused: false,
            queue: Queue::EMPTY,
            clock: Clock::POWER_UP,
            command: Command::default(),
            keys: Keys::POWER_UP,
        }
    }

    /// "everything but the clock goes to power-up, queue and held motion are
    /// dropped"; request A1 adds that "the map outlives the reset".
    pub fn reset(&mut self) {
        let (clock, keys) = (self.clock, self.rules.map_after_reset(self.keys));
        *self = State::power_up(self.rules);
        self.clock = clock;
        self.keys = keys;
    }

    /// "Live: on, port 0 mouse, not monitoring."
    pub fn mouse_is_live(&self) -> bool {
        self.mouse.on && self.port0 == Role::Mouse && !self.joysticks.is_monitoring()
    }

    /// Request A4 amends the live rule for the right button "With the mouse off,
    /// port 0 a mouse and no monitoring mode".
    pub fn is_fire_button(&self, button: Button) -> bool {
        let monitoring = self.joysticks.is_monitoring();
        !self.mouse.on && self.rules.fires(button, self.port0, monitoring)
    }
}
