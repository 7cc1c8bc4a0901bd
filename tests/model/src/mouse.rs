//! "The mouse."

use crate::rules::{Occasion, Rules, Sending};
use crate::state::{acting, arrow, MouseMode, X, Y};

/// The button action that makes keys of the buttons.
pub const KEYS: u8 = 4;

/// How many bytes a report of the absolute mode has.
pub const REPORT: usize = 6;

#[derive(Clone, Copy, Debug, PartialEq, Eq)]
pub enum Button {
    Left,
    Right,
}

#[derive(Clone, Copy, Debug, PartialEq, Eq)]
pub struct Mouse {
    pub mode: MouseMode,
    pub action: u8,
    pub threshold: [u8; 2],
    pub scale: [u8; 2],
    pub origin_bottom: bool,
    pub on: bool,
    pub coordinates: [u16; 2],
    pub held: [i32; 2],
    /// The button levels as a packet shows them: 2 left, 1 right.
    pub levels: u8,
    /// "latches (1 right down, 2 right up, 4 left down, 8 left up)"
    pub latches: u8,
}

impl Mouse {
    /// "relative, action 0, thresholds 1, scales 1, origin top, mouse on"
    pub const POWER_UP: Mouse = Mouse {
        mode: MouseMode::Relative,
        action: 0,
        threshold: [1, 1],
        scale: [1, 1],
        origin_bottom: false,
        on: true,
        coordinates: [0, 0],
        held: [0, 0],
        levels: 0,
        latches: 0,
    };

    /// "0x08, 0x09, 0x0A turn the mouse on, clear held motion, zero the
    /// coordinates"
    pub fn enter(&mut self, mode: MouseMode) {
        self.mode = mode;
        self.on = true;
        self.held = [0, 0];
        self.coordinates = [0, 0];
    }

    /// "0x12 turns the mouse off and clears held motion."
    pub fn turn_off(&mut self) {
        self.on = false;
        self.held = [0, 0];
    }

    /// "0x0E is held to the maximum."
    pub fn load(&mut self, position: [u16; 2]) {
        if let MouseMode::Absolute { maximum } = self.mode {
            self.coordinates = [X, Y].map(|axis| position[axis].min(maximum[axis]));
        }
    }

    /// "In every mode live motion is first added to the held motion."
    /// "Origin bottom negates dy as the event comes in, except in keycode
    /// mode."
    pub fn hold(&mut self, dx: i32, dy: i32) {
        let keycode = matches!(self.mode, MouseMode::Keycode { .. });
        self.held[X] += dx;
        self.held[Y] += if self.origin_bottom && !keycode {
            -dy
        } else {
            dy
        };
    }

    /// "held motion, divided by the scale toward zero, moves the coordinate;
    /// the remainder stays"; "Coordinates never pass 0 or the maximum"
    pub fn move_coordinates(&mut self, maximum: [u16; 2]) {
        for axis in [X, Y] {
            let scale = acting(self.scale[axis]);
            let moved = i32::from(self.coordinates[axis]) + self.held[axis] / scale;
            self.coordinates[axis] = moved.clamp(0, i32::from(maximum[axis])) as u16;
            self.held[axis] %= scale;
        }
    }

    /// Sends the held motion that is due at a motion event or at a resume.
    pub fn send_due(&mut self, occasion: Occasion, rules: &Rules, out: &mut Vec<u8>) {
        match self.mode {
            MouseMode::Relative => {
                if self.reaches_threshold(rules) {
                    self.send_held(occasion, rules, out);
                }
            }
            MouseMode::Absolute { .. } => {} // "in absolute mode none is due"
            MouseMode::Keycode { delta } => self.send_arrows(delta, rules, out),
        }
    }

    /// "if either axis reaches its threshold (and isn't 0), all is sent"
    fn reaches_threshold(&self, rules: &Rules) -> bool {
        [X, Y].iter().any(|&axis| {
            self.held[axis].abs() >= acting(self.threshold[axis]) + rules.past_threshold
        })
    }

    /// Sends all held motion, or does what a wrong variant does with it.
    fn send_held(&mut self, occasion: Occasion, rules: &Rules, out: &mut Vec<u8>) {
        let (held, sent) = (self.held, out.len());
        let sending = rules.sending(occasion);
        if sending == Sending::Dropped {
            self.held = [0, 0];
        }
        self.send_all(occasion, rules, out);
        match sending {
            Sending::Once | Sending::Dropped => {}
            Sending::AndKept => self.held = held,
            Sending::FirstPacket => out.truncate(sent + 3),
        }
    }

    /// "One packet is 0xF8 + 2·left + right, X, Y in two's complement." At least
    /// one packet.
    fn send_all(&mut self, occasion: Occasion, rules: &Rules, out: &mut Vec<u8>) {
        let parts = rules.parts(occasion, self.held);
        for part in parts {
            out.extend_from_slice(&[0xF8 + self.levels, part[X] as u8, part[Y] as u8]);
        }
        self.held = [0, 0];
    }

    /// "each whole delta in the held motion sends a make and break pair, all X
    /// first; the remainder stays"
    fn send_arrows(&mut self, delta: [u8; 2], rules: &Rules, out: &mut Vec<u8>) {
        for axis in [X, Y] {
            let delta = acting(delta[axis]);
            let make = arrow(axis, self.held[axis]);
            for _ in 0..(self.held[axis] / delta).abs() {
                rules.push_pair(make, out);
            }
            self.held[axis] %= delta;
        }
    }

    pub fn is_down(&self, button: Button) -> bool {
        self.levels & level_bit(button) != 0
    }

    /// Changes the level of a button, and no more.
    pub fn toggle(&mut self, button: Button) {
        self.levels ^= level_bit(button);
    }

    /// What a live button whose level has just changed sends.
    pub fn button(&mut self, button: Button, down: bool, rules: &Rules, out: &mut Vec<u8>) {
        let absolute = self.mode.is_absolute();
        let keycode = matches!(self.mode, MouseMode::Keycode { .. });
        if absolute {
            // "a live button, with any action, sets its latch"
            self.latches |= latch_bit(button, down);
        }
        if keycode || self.action == KEYS {
            // "Buttons with action 4 or in this mode are keys 0x74 left, 0x75
            // right."
            out.push(rules.key(key_of(button), down));
        } else if !absolute {
            // "A button with action 0 to 3 sends all held motion with the new
            // levels, at least one packet, paused or not."
            self.send_held(Occasion::Button, rules, out);
        } else if self.action & if down { 1 } else { 2 } != 0 {
            // "then with action bit 0 a press, with bit 1 a release, sends the
            // same report without clearing": by request A7 "the look's bytes
            // alone".
            out.extend_from_slice(&self.report());
        }
    }

    /// "0xF7, latches, X, Y high byte first"
    pub fn report(&self) -> [u8; REPORT] {
        let [x, y] = self.coordinates.map(u16::to_be_bytes);
        [0xF7, self.latches, x[0], x[1], y[0], y[1]]
    }
}

/// How motion is split into packets: the part of each axis that each carries.
pub fn split(totals: [i32; 2]) -> Vec<[i32; 2]> {
    let count = packets_for(totals);
    let parts = (0..count).map(|k| totals.map(|total| part(total, k, count)));
    parts.collect()
}

/// "The fewest packets are sent", so as many as the axis needs that needs the most
/// (reading 91); "at least one packet".
pub fn packets_for(totals: [i32; 2]) -> i32 {
    let [x, y] = totals.map(packets_needed);
    x.max(y).max(1)
}

/// How many parts of -128 to 127 a total needs: 256 needs 3, and -256 needs 2.
fn packets_needed(total: i32) -> i32 {
    match total {
        0.. => (total + 126) / 127,
        _ => (127 - total) / 128,
    }
}

/// Request A6: "of n packets the k-th, from 0, carries t·(k+1)/n less t·k/n, each
/// division rounded down, for an axis total t." Down is toward minus infinity
/// (reading 91).
fn part(total: i32, k: i32, count: i32) -> i32 {
    (total * (k + 1)).div_euclid(count) - (total * k).div_euclid(count)
}

fn level_bit(button: Button) -> u8 {
    match button {
        Button::Left => 2,
        Button::Right => 1,
    }
}

fn latch_bit(button: Button, down: bool) -> u8 {
    match (button, down) {
        (Button::Right, true) => 1,
        (Button::Right, false) => 2,
        (Button::Left, true) => 4,
        (Button::Left, false) => 8,
    }
}

fn key_of(button: Button) -> u8 {
    match button {
        Button::Left => 0x74,
        Button::Right => 0x75,
    }
}
