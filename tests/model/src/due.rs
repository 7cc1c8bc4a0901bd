//! "the packets that fell due, in order": they are told by what they fall due
//! for, in the mode that the controller is in, and never by their bytes. So
//! cutting (`receiver`) can be held against them.
//!
//! This holds while "0x17 and 0x18 are never executed": what the monitoring modes
//! report are no packets.

use crate::controller::{step, Answer, Input};
use crate::mouse::{Button, KEYS};
use crate::receiver::Kind;
use crate::rules::Rules;
use crate::state::{JoystickMode, MouseMode, State};

#[derive(Clone, Debug, PartialEq, Eq)]
pub struct Packet {
    pub kind: Kind,
    pub bytes: Vec<u8>,
}

/// What bytes that fell due for one thing are.
#[derive(Clone, Copy, Debug, PartialEq, Eq)]
enum Form {
    /// Packets of one kind and of this length.
    Packets(Kind, usize),
    /// Pairs of a make and a break, and behind them perhaps one key that goes down
    /// or up.
    Keys { last_down: bool },
}

/// A controller, and the packets in its queue.
pub struct Sender {
    pub state: State,
    queue: Vec<Packet>,
}

impl Sender {
    /// "from power-up"
    pub fn new() -> Sender {
        Sender {
            state: State::power_up(Rules::DOCUMENT),
            queue: Vec::new(),
        }
    }

    /// Whether this input would be the code of 0x17 or 0x18.
    pub fn would_monitor(&self, input: Input) -> bool {
        matches!(input, Input::Host(0x17 | 0x18)) && !self.state.command.is_half_received()
    }

    /// Takes an input or refuses it, and adds to `sent` the packets that it sends.
    pub fn take(&mut self, input: Input, lent: usize, sent: &mut Vec<Packet>) -> Answer {
        let before = self.state;
        assert!(!before.joysticks.is_monitoring(), "no packets are sent");
        let mut out = Vec::new();
        step(&mut self.state, input, lent, &mut out)?;
        match input {
            Input::Host(byte) => self.take_host_byte(byte, &before, &out, sent),
            event => self.take_event(event, &before, &out, sent),
        }
        Ok(())
    }

    /// What falls due for an event is sent, or goes to the queue's end.
    fn take_event(&mut self, event: Input, before: &State, out: &[u8], sent: &mut Vec<Packet>) {
        let waited = before.queue.bytes().len();
        let queued = &self.state.queue.bytes()[waited..];
        if let Some(form) = form_of_event(event, before) {
            push_packets(form, out, sent);
            push_packets(form, queued, &mut self.queue);
        }
    }

    /// A command "first resumes: the queue is written, then held motion that is
    /// due [...], and only then the command acts"; a reset drops the queue.
    fn take_host_byte(&mut self, byte: u8, before: &State, out: &[u8], sent: &mut Vec<Packet>) {
        let mut command = before.command;
        if !command.receive(byte) {
            return;
        }
        if command.code() == 0x80 {
            if !out.is_empty() {
                self.queue.clear();
                push_reset(before, out, sent);
            }
            return;
        }
        if before.paused && !self.state.paused {
            sent.append(&mut self.queue);
        }
        let unqueued = out.get(before.queue.bytes().len()..).unwrap_or_default();
        let answer = form_of_answer(command.code());
        let length = answer.map_or(0, |(_, length)| length);
        let (motion, own) = unqueued.split_at(unqueued.len().saturating_sub(length));
        if let Some(form) = form_of_motion(before) {
            push_packets(form, motion, sent);
        }
        if let Some((kind, length)) = answer {
            push_packets(Form::Packets(kind, length), own, sent);
        }
    }
}

impl Default for Sender {
    fn default() -> Sender {
        Sender::new()
    }
}

/// "Reset sends 0xF0 and then the break code of each key in the map", and "each
/// break code after a reset's 0xF0 is a packet of its own" (reading 115).
fn push_reset(before: &State, out: &[u8], sent: &mut Vec<Packet>) {
    let breaks = before.keys.held().map(|code| key(code, false));
    let kinds = std::iter::once(Kind::VersionOrBreak70).chain(breaks);
    let packets = kinds.zip(out).map(|(kind, &byte)| Packet {
        kind,
        bytes: vec![byte],
    });
    sent.extend(packets);
}

/// "0xF0 is named as both its meanings."
fn key(code: u8, down: bool) -> Kind {
    match (code, down) {
        (0x70, false) => Kind::VersionOrBreak70,
        _ => make_or_break(down),
    }
}

fn make_or_break(down: bool) -> Kind {
    match down {
        true => Kind::Make,
        false => Kind::Break,
    }
}

/// What an event in this state makes fall due; none if nothing ever does.
fn form_of_event(event: Input, before: &State) -> Option<Form> {
    match event {
        Input::Key { code, down } => Some(Form::Packets(key(code, down), 1)),
        Input::Button { button, down } => form_of_button(button, down, before),
        Input::Motion { .. } => form_of_motion(before),
        Input::Stick { trigger, .. } => form_of_stick(trigger == 1, before),
        // "a wait at or above it gives a pair"
        Input::Tick => Some(Form::Keys { last_down: false }),
        Input::Sample(_) | Input::Host(_) => None,
    }
}

/// A button that fires is handled as a stick (request A4). "Buttons with action 4
/// or in this mode", keycode, "are keys". In absolute mode a button sends the
/// coordinates, in relative mode motion.
fn form_of_button(button: Button, down: bool, before: &State) -> Option<Form> {
    if before.is_fire_button(button) {
        return form_of_stick(down, before);
    }
    let as_key = Form::Packets(make_or_break(down), 1);
    match before.mouse.mode {
        _ if before.mouse.action == KEYS => Some(as_key),
        MouseMode::Keycode { .. } => Some(as_key),
        MouseMode::Absolute { .. } => Some(Form::Packets(Kind::MousePosition, 6)),
        MouseMode::Relative => form_of_motion(before),
    }
}

/// Held motion that is due.
fn form_of_motion(before: &State) -> Option<Form> {
    match before.mouse.mode {
        MouseMode::Relative => Some(Form::Packets(Kind::MouseMotion, 3)),
        MouseMode::Absolute { .. } => None,
        MouseMode::Keycode { .. } => Some(Form::Keys { last_down: false }),
    }
}

/// "0xFE or 0xFF and the byte"; in keycode mode arrows, "trigger last".
fn form_of_stick(trigger: bool, before: &State) -> Option<Form> {
    match before.joysticks.mode {
        JoystickMode::Event => Some(Form::Packets(Kind::StickEvent, 2)),
        JoystickMode::Interrogation => None,
        JoystickMode::Keycode(_) => Some(Form::Keys { last_down: trigger }),
        JoystickMode::Monitoring { .. } | JoystickMode::FireMonitoring => None,
    }
}

/// The packet that a command itself sends where it is executed.
fn form_of_answer(code: u8) -> Option<(Kind, usize)> {
    match code {
        0x0D => Some((Kind::MousePosition, 6)),
        0x16 => Some((Kind::BothSticks, 3)),
        0x1C => Some((Kind::Time, 7)),
        0x87.. => Some((Kind::Status, 8)),
        _ => None,
    }
}

/// Adds `bytes`, which have this form, to `packets`.
fn push_packets(form: Form, bytes: &[u8], packets: &mut Vec<Packet>) {
    let length = match form {
        Form::Packets(_, length) => length,
        Form::Keys { .. } => 1,
    };
    assert!(bytes.len().is_multiple_of(length), "a part of a packet");
    let pairs = bytes.len() / 2;
    for (place, bytes) in bytes.chunks(length).enumerate() {
        let kind = match form {
            Form::Packets(kind, _) => kind,
            Form::Keys { last_down } if place == 2 * pairs => make_or_break(last_down),
            Form::Keys { .. } => make_or_break(place.is_multiple_of(2)),
        };
        let bytes = bytes.to_vec();
        packets.push(Packet { kind, bytes });
    }
}
