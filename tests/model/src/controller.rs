//! One input goes in, with the length of the lent buffer; an answer comes out,
//! and the bytes. A refusal writes nothing and changes nothing.

use crate::command::Command;
use crate::keys::CODES;
use crate::look::clear;
use crate::mouse::Button;
use crate::rules::Occasion;
use crate::state::{JoystickMode, MouseMode, Role, State, Velocity};

/// A host byte or an event, its numbers as they came.
#[derive(Clone, Copy, Debug, PartialEq, Eq)]
pub enum Input {
    Host(u8),
    Key {
        code: u8,
        down: bool,
    },
    Button {
        button: Button,
        down: bool,
    },
    Motion {
        dx: i32,
        dy: i32,
    },
    Stick {
        stick: i32,
        position: i32,
        trigger: i32,
    },
    Sample(i32),
    Tick,
}

/// "the four refusals" of an input, and the one that only a look meets.
#[derive(Clone, Copy, Debug, PartialEq, Eq)]
pub enum Refusal {
    /// "an event's number is outside its range"
    OutOfRange = 1,
    /// "paused, and the bytes to be queued do not fit whole in the [...] queue"
    QueueFull = 2,
    /// "paused, mouse live in relative or keycode mode, and held motion on an
    /// axis would leave" its limits
    MotionFull = 3,
    /// "the bytes due now are more than the lent buffer's length"
    NoRoom = 4,
    /// Request A7: "7, exactly when the panel looks outside absolute mode"
    NotAbsolute = 7,
}

pub type Answer = Result<(), Refusal>;

/// The number of an answer: 0 for taken.
pub fn answer_number(answer: Answer) -> u8 {
    match answer {
        Ok(()) => 0,
        Err(refusal) => refusal as u8,
    }
}

/// Takes `input` or refuses it. `out` holds the bytes written, none if refused.
pub fn step(state: &mut State, input: Input, lent: usize, out: &mut Vec<u8>) -> Answer {
    out.clear();
    let answer = state.take(input, lent, out);
    if answer.is_err() {
        out.clear();
    }
    answer
}

/// "1 is tested first"
fn check(input: &Input) -> Answer {
    let within = match *input {
        Input::Key { code, .. } => CODES.contains(&code),
        Input::Motion { dx, dy } => (-64..=64).contains(&dx) && (-64..=64).contains(&dy),
        Input::Stick {
            stick,
            position,
            trigger,
        } => (0..=1).contains(&stick) && (0..=15).contains(&position) && (0..=1).contains(&trigger),
        Input::Sample(bit) => (0..=1).contains(&bit),
        Input::Host(_) | Input::Button { .. } | Input::Tick => true,
    };
    if within {
        Ok(())
    } else {
        Err(Refusal::OutOfRange)
    }
}

fn check_room(lent: usize, out: &[u8]) -> Answer {
    if out.len() <= lent {
        Ok(())
    } else {
        Err(Refusal::NoRoom)
    }
}

impl State {
    fn take(&mut self, input: Input, lent: usize, out: &mut Vec<u8>) -> Answer {
        check(&input)?;
        match input {
            Input::Host(byte) => self.host_byte(byte, lent, out),
            Input::Key { code, down } => self.key(code, down, lent, out),
            Input::Button { button, down } => self.button(button, down, lent, out),
            Input::Motion { dx, dy } => self.motion(dx, dy, lent, out),
            Input::Stick {
                stick,
                position,
                trigger,
            } => {
                let (stick, byte) = (stick as usize, (128 * trigger + position) as u8);
                self.stick(stick, self.rules.stick_byte(self, stick, byte), lent, out)
            }
            Input::Sample(bit) => self.sample(bit as u8, lent, out),
            Input::Tick => self.tick(lent, out),
        }
    }

    /// "Paused bytes of keys, buttons and sticks go to the queue."
    fn deliver(&mut self, lent: usize, out: &mut Vec<u8>) -> Answer {
        if !self.paused {
            return check_room(lent, out);
        }
        if !self.queue.append(out, self.rules.queue_limit) {
            return Err(Refusal::QueueFull);
        }
        out.clear();
        Ok(())
    }

    /// What a key sends; if that is taken, the map follows it.
    fn key(&mut self, code: u8, down: bool, lent: usize, out: &mut Vec<u8>) -> Answer {
        let (paused, monitoring) = (self.paused, self.joysticks.is_monitoring());
        let answer = self.send_key(code, down, lent, out);
        if self.rules.map_follows(answer, down, paused, monitoring) {
            self.keys.follow(code, down);
        }
        answer
    }

    /// "A key event sends its make when down, its break when up"; "Both
    /// monitoring modes send nothing else for events."
    fn send_key(&mut self, code: u8, down: bool, lent: usize, out: &mut Vec<u8>) -> Answer {
        if self.joysticks.is_monitoring() {
            return Ok(());
        }
        out.push(self.rules.key(code, down));
        self.deliver(lent, out)
    }

    /// "An unchanged level does nothing."
    fn button(&mut self, button: Button, down: bool, lent: usize, out: &mut Vec<u8>) -> Answer {
        if self.mouse.is_down(button) == down {
            return Ok(());
        }
        if self.is_fire_button(button) {
            return self.fire(button, down, lent, out);
        }
        let mut mouse = self.mouse;
        mouse.toggle(button);
        if self.mouse_is_live() {
            mouse.button(button, down, &self.rules, out);
            let rules = self.rules;
            rules.after_button(self, out, &mut mouse);
            self.deliver(lent, out).inspect_err(|&refusal| {
                rules.after_refused_button(refusal, mouse.latches, &mut self.mouse);
            })?;
        }
        self.mouse = mouse;
        Ok(())
    }

    /// Request A4: "a changed right button changes its level and else is handled
    /// exactly as a stick 1 event with the position held and that trigger."
    /// "Refusals: 2 and 4 as for a stick event", and they leave the level too.
    fn fire(&mut self, button: Button, down: bool, lent: usize, out: &mut Vec<u8>) -> Answer {
        let byte = self.rules.fire_byte(&self.joysticks, down);
        let answer = self.stick(1, byte, lent, out);
        if self.rules.level_follows(answer) {
            self.mouse.toggle(button);
        }
        answer
    }

    /// "Otherwise motion is dropped": when the mouse is not live.
    fn motion(&mut self, dx: i32, dy: i32, lent: usize, out: &mut Vec<u8>) -> Answer {
        if !self.mouse_is_live() {
            return Ok(());
        }
        let mut mouse = self.mouse;
        mouse.hold(dx, dy);
        if let MouseMode::Absolute { maximum } = mouse.mode {
            mouse.move_coordinates(maximum);
        } else if self.paused {
            let limit = self.rules.held_limit;
            if mouse.held.iter().any(|held| held.abs() > limit) {
                return Err(Refusal::MotionFull);
            }
        } else {
            mouse.send_due(Occasion::Motion, &self.rules, out);
            check_room(lent, out)?;
        }
        self.mouse = mouse;
        Ok(())
    }

    /// "A stick event always stores its byte (128·trigger + position)."
    fn stick(&mut self, stick: usize, byte: u8, lent: usize, out: &mut Vec<u8>) -> Answer {
        let mut joysticks = self.joysticks;
        joysticks.stick(stick, byte, self.port0, &self.rules, out);
        self.deliver(lent, out)?;
        self.joysticks = joysticks;
        Ok(())
    }

    /// "Paused: [...] samples are dropped."
    fn sample(&mut self, bit: u8, lent: usize, out: &mut Vec<u8>) -> Answer {
        if self.paused {
            return Ok(());
        }
        let mut joysticks = self.joysticks;
        joysticks.sample(bit, out);
        check_room(lent, out)?;
        self.joysticks = joysticks;
        Ok(())
    }

    /// "Paused: ticks move only the clock"
    fn tick(&mut self, lent: usize, out: &mut Vec<u8>) -> Answer {
        if !self.paused {
            let mut joysticks = self.joysticks;
            joysticks.tick(self.port0, &self.rules, out);
            check_room(lent, out)?;
            self.joysticks = joysticks;
        }
        self.clock.tick(&self.rules);
        Ok(())
    }

    /// "A command acts on its last byte."
    fn host_byte(&mut self, byte: u8, lent: usize, out: &mut Vec<u8>) -> Answer {
        let mut command = self.command;
        if !command.receive(byte) {
            self.command = command;
            return Ok(());
        }
        if command.code() == 0x80 {
            self.reset_command(command.parameter(0), lent, out)?;
        } else if self.is_executed(&command) {
            self.execute(&command, lent, out)?;
        }
        self.command = Command::default();
        Ok(())
    }

    /// "0x80 then 0x01 resets [...] 0x80 then another byte: both ignored."
    /// "Reset sends 0xF0 and then the break code of each key in the map"
    fn reset_command(&mut self, parameter: u8, lent: usize, out: &mut Vec<u8>) -> Answer {
        if parameter == 0x01 {
            out.push(0xF0);
            self.rules.push_breaks(&self.keys, lent, out);
            check_room(lent, out)?;
            self.reset();
        }
        Ok(())
    }

    /// Whether a command is one that does something and is not ignored.
    fn is_executed(&self, command: &Command) -> bool {
        match command.code() {
            0x07 => command.parameter(0) <= 4,
            0x0D => self.rules.interrogates(self.mouse.mode),
            0x0E => self.mouse.mode.is_absolute(),
            0x16 => self.joysticks.answers_interrogation(),
            0x08..=0x1C => true,
            0x87..=0x8C | 0x8F | 0x90 | 0x92 | 0x94..=0x96 | 0x99 | 0x9A => {
                !self.joysticks.is_monitoring()
            }
            _ => false, // "Other codes do nothing." 0x20 to 0x22 are ignored.
        }
    }

    /// "While paused, a command that is executed, other than 0x13 and reset,
    /// first resumes: the queue is written, then held motion that is due (if
    /// the mouse is live), and only then the command acts."
    fn execute(&mut self, command: &Command, lent: usize, out: &mut Vec<u8>) -> Answer {
        let code = command.code();
        let resumes = self.paused && code != 0x13 && self.rules.resumes(code);
        let mut mouse = self.mouse;
        if resumes {
            out.extend_from_slice(self.queue.bytes());
            if self.mouse_is_live() {
                mouse.send_due(Occasion::Resume, &self.rules, out);
            }
        }
        self.push_answer(code, out);
        let rules = self.rules;
        check_room(lent, out).inspect_err(|_| rules.after_refused(code, &mut self.mouse))?;
        if resumes {
            self.mouse = mouse;
            self.queue.clear();
            self.paused = false;
        }
        self.act(command);
        Ok(())
    }

    /// The bytes that a command itself sends.
    fn push_answer(&self, code: u8, out: &mut Vec<u8>) {
        match code {
            // Request A7: "then is one after the other", first the look.
            0x0D => out.extend_from_slice(&self.rules.interrogated(&self.mouse)),
            // Request A4: "Switching the mouse off sends nothing."
            0x12 if self.mouse.is_down(Button::Right) => {
                self.rules.push_at_mouse_off(&self.joysticks, out);
            }
            0x16 => {
                let [first, second] = self.joysticks.sticks;
                out.extend_from_slice(&[0xFD, first, second]);
            }
            0x1C => self.clock.push_packet(out),
            0x80.. => {
                out.push(0xF6);
                out.extend_from_slice(&self.status(code));
            }
            _ => {}
        }
    }

    /// "A reply is 0xF6, then the command that would set it, filled with zeros
    /// to 8 bytes."
    fn status(&self, inquiry: u8) -> [u8; 7] {
        let mouse = &self.mouse;
        match inquiry {
            0x87 => filled([0x07, mouse.action]),
            0x88..=0x8A => mouse_mode_status(mouse.mode),
            0x8B => filled([0x0B, mouse.threshold[0], mouse.threshold[1]]),
            0x8C => filled([0x0C, mouse.scale[0], mouse.scale[1]]),
            0x8F | 0x90 => filled([if mouse.origin_bottom { 0x0F } else { 0x10 }]),
            0x92 => filled([if mouse.on { 0x00 } else { 0x12 }]),
            0x9A => filled([if self.joysticks.on { 0x00 } else { 0x1A }]),
            _ => joystick_mode_status(self.joysticks.mode),
        }
    }

    fn act(&mut self, command: &Command) {
        match command.code() {
            0x07 => self.mouse.action = command.parameter(0),
            0x08 => self.enter_mouse_mode(MouseMode::Relative),
            0x09 => self.enter_mouse_mode(MouseMode::Absolute {
                maximum: command.words(0),
            }),
            0x0A => self.enter_mouse_mode(MouseMode::Keycode {
                delta: command.pair(0),
            }),
            0x0B => self.mouse.threshold = command.pair(0),
            0x0C => self.mouse.scale = command.pair(0),
            0x0D if self.rules.interrogation_clears() => clear(self), // the clearing
            0x0E => self.mouse.load(command.words(1)),
            0x0F => self.mouse.origin_bottom = true,
            0x10 => self.mouse.origin_bottom = false,
            0x12 => self.mouse.turn_off(),
            0x13 => self.paused = true,
            0x14 => self.joysticks.enter(JoystickMode::Event),
            0x15 => self.joysticks.enter(JoystickMode::Interrogation),
            0x17 => self.joysticks.enter(JoystickMode::Monitoring {
                rate: command.parameter(0),
            }),
            0x18 => self.joysticks.enter(JoystickMode::FireMonitoring),
            0x19 => self.joysticks.enter(JoystickMode::Keycode(Velocity {
                breakpoint: command.pair(0),
                before: command.pair(2),
                after: command.pair(4),
            })),
            0x1A => self.joysticks.turn_off(),
            0x1B => self.clock.set(&command.six(), &self.rules),
            _ => {} // 0x11, 0x16, 0x1C and the inquiries change nothing more
        }
        self.set_role(command.code());
    }

    /// "and, from a monitoring mode, go to event mode"; a trigger that the right
    /// button set "stays set when the mouse is switched on again" (reading 114).
    fn enter_mouse_mode(&mut self, mode: MouseMode) {
        if !self.mouse.on {
            self.rules.at_mouse_on(&mut self.joysticks);
        }
        self.mouse.enter(mode);
        self.joysticks.leave_monitoring();
    }

    /// "Executed 0x07 to 0x10 make port 0 a mouse; executed 0x14 to 0x1A make
    /// it a joystick."
    fn set_role(&mut self, code: u8) {
        match code {
            0x07..=0x10 if self.rules.makes_a_mouse(code) => self.port0 = Role::Mouse,
            0x14..=0x1A => self.port0 = Role::Joystick,
            _ => {}
        }
    }
}

fn mouse_mode_status(mode: MouseMode) -> [u8; 7] {
    match mode {
        MouseMode::Relative => filled([0x08]),
        MouseMode::Absolute { maximum } => {
            let [x, y] = maximum.map(u16::to_be_bytes);
            filled([0x09, x[0], x[1], y[0], y[1]])
        }
        MouseMode::Keycode { delta } => filled([0x0A, delta[0], delta[1]]),
    }
}

fn joystick_mode_status(mode: JoystickMode) -> [u8; 7] {
    match mode {
        JoystickMode::Event => filled([0x14]),
        JoystickMode::Interrogation => filled([0x15]),
        JoystickMode::Monitoring { rate } => filled([0x17, rate]),
        JoystickMode::FireMonitoring => filled([0x18]),
        JoystickMode::Keycode(velocity) => {
            let [rx, ry] = velocity.breakpoint;
            let [tx, ty] = velocity.before;
            let [vx, vy] = velocity.after;
            [0x19, rx, ry, tx, ty, vx, vy]
        }
    }
}

/// `bytes` and then zeros.
fn filled<const N: usize>(bytes: [u8; N]) -> [u8; 7] {
    let mut reply = [0; 7];
    reply[..N].copy_from_slice(&bytes);
    reply
}
