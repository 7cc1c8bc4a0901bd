//! The account of a session: motion that came in, and motion that packets said.
//!
//! Document 02, A14: "The X of all mouse packets that fell due meanwhile, each
//! once, written at once or queued [...], plus the held X at the end, equals the
//! held X at the start plus the dx of every motion that came while the mouse was
//! live. For Y the same, each dy signed by the origin when it came."
//!
//! Held motion cannot be seen, and so the account is closed where there is none:
//! "A button with action 0 to 3 sends all held motion", and while not paused it
//! is written at once. From one closing to the next the packets must say what
//! the motions brought, no more and no less. In between, what they have not said
//! must be no more than can be held.

use super::commands::{is_excluded, Reader};
use super::lines::{Button, Input, Reply};
use super::packets::said;
use super::settings::Settings;
use super::tally::{Seen, Tally};

/// An amount of each axis.
type Pair = [i32; 2];

const AXES: [&str; 2] = ["X", "Y"];
const NONE: Pair = [0, 0];
/// "held motion is -254 to 254, and beyond that, to 2,032 either way, only while
/// paused with the mouse live in relative or keycode mode". The ledger's own copy:
/// what a program has to keep to is not taken from the model.
const HELD: Pair = [254, 254];
const HELD_PAUSED: Pair = [2032, 2032];

pub struct Account<'a> {
    settings: Settings,
    reader: Reader,
    /// What motions brought while the mouse was live, since the last closing.
    brought: Pair,
    /// What written mouse packets said since then.
    said: Pair,
    /// What mouse packets say that wait in the queue.
    queued: Pair,
    /// How many inputs were entered, and how many of them up to the last closing.
    pub entered: usize,
    pub closed: usize,
    tally: &'a mut Tally,
}

impl Account<'_> {
    /// The account of a session that starts from power-up.
    pub fn open(tally: &mut Tally) -> Account<'_> {
        Account {
            settings: Settings::POWER_UP,
            reader: Reader::default(),
            brought: NONE,
            said: NONE,
            queued: NONE,
            entered: 0,
            closed: 0,
            tally,
        }
    }

    /// Enters an input and what came back for it.
    pub fn enter(&mut self, input: Input, reply: &Reply) -> Result<(), String> {
        self.entered += 1;
        if reply.answer != 0 {
            return self.refused(input, reply);
        }
        let said = said(self.settings.due(input), &reply.bytes)?;
        let held = self.held();
        self.said = sum(self.said, said.motion);
        self.tally.taken(said);
        match input {
            Input::Host(byte) => self.host_byte(byte, held)?,
            Input::Motion(dx, dy) => self.motion(dx, dy)?,
            Input::Button(button, down) => self.button(button, down)?,
            Input::Key(..) | Input::Stick(..) | Input::Sample(_) | Input::Tick => {}
        }
        self.check_held()
    }

    /// "Every number but 0 [...] reports 0 bytes written and leaves state and
    /// buffer the same." The text program's buffer is never too short, and a
    /// session has no bad line.
    fn refused(&mut self, input: Input, reply: &Reply) -> Result<(), String> {
        let some_held = self.held() != NONE;
        match (reply.answer, input) {
            (1, _) => self.tally.saw(Seen::OutOfRange),
            (2, Input::Button(..)) if some_held => self.tally.saw(Seen::FullButtons),
            (2, _) => self.tally.saw(Seen::QueueFull),
            (3, _) => self.tally.saw(Seen::MotionFull),
            (answer, _) => return Err(format!("no input is answered with {answer}")),
        }
        match reply.bytes.is_empty() {
            true => Ok(()),
            false => Err("a refusal wrote bytes".into()),
        }
    }

    /// "Otherwise motion is dropped": when the mouse is not live. "Origin bottom
    /// negates dy as the event comes in". "Not paused, if either axis reaches its
    /// threshold (and isn't 0), all is sent."
    fn motion(&mut self, dx: i32, dy: i32) -> Result<(), String> {
        if !self.settings.mouse_is_live() {
            self.tally.saw(Seen::Dropped);
            return Ok(());
        }
        let dy = if self.settings.origin_bottom { -dy } else { dy };
        self.brought = sum(self.brought, [dx, dy]);
        self.tally.saw(Seen::Motions);
        let within_command = self.reader.is_half_received();
        self.tally.saw_if(Seen::WithinCommand, within_command);
        if !self.settings.paused {
            return self.check_within(below(self.settings.thresholds));
        }
        let at_limits = self.held().map(i32::abs) == HELD_PAUSED;
        let moved = [dx, dy] != NONE;
        self.tally.saw_if(Seen::BothLimits, at_limits && moved);
        Ok(())
    }

    /// "An unchanged level does nothing." "A button with action 0 to 3 sends all
    /// held motion with the new levels, at least one packet, paused or not."
    fn button(&mut self, button: Button, down: bool) -> Result<(), String> {
        let some_held = self.held() != NONE;
        let level = &mut self.settings.down[button as usize];
        if std::mem::replace(level, down) == down {
            self.tally.saw_if(Seen::Unchanged, some_held);
        } else if !self.settings.mouse_is_live() {
            self.tally.saw_if(Seen::LevelOnly, some_held);
        } else if self.settings.buttons_are_keys() {
            self.tally.saw_if(Seen::KeyButtons, some_held);
        } else if self.settings.paused {
            self.tally.saw_if(Seen::PausedButtons, some_held);
            self.queued = difference(self.brought, self.said);
        } else {
            return self.close();
        }
        Ok(())
    }

    /// `held` is what was held before this byte.
    fn host_byte(&mut self, byte: u8, held: Pair) -> Result<(), String> {
        let looks_excluded = self.reader.is_half_received() && is_excluded(&[byte]);
        self.tally.saw_if(Seen::LookAlikes, looks_excluded);
        let Some(command) = self.reader.receive(byte) else {
            return Ok(());
        };
        if is_excluded(&command) {
            return Err("the session has a command that is excluded".into());
        }
        self.tally.saw_if(Seen::NoReset, command[0] == 0x80);
        if !self.settings.executes(&command) {
            let paused = self.settings.paused;
            self.tally.saw_if(Seen::NoResume, paused && held != NONE);
            return Ok(());
        }
        let before = self.settings;
        self.settings.execute(&command);
        if before.paused && !self.settings.paused {
            self.resumed(&before, command[0], held)?;
        }
        let some_held = self.held() != NONE;
        let turned = before.origin_bottom != self.settings.origin_bottom;
        self.tally.saw_if(Seen::Origins, some_held && turned);
        let taken_away = before.mouse_is_live() && !self.settings.mouse_is_live();
        self.tally.saw_if(Seen::TakenAway, some_held && taken_away);
        Ok(())
    }

    /// "the queue is written, then held motion that is due (if the mouse is
    /// live), and only then the command acts": by the settings of `before`.
    fn resumed(&mut self, before: &Settings, code: u8, held: Pair) -> Result<(), String> {
        self.queued = NONE;
        if held != NONE && self.held() == NONE {
            self.tally.resume_sent(code);
            let one_packet = held.iter().all(|axis| (-128..=127).contains(axis));
            self.tally.saw_if(Seen::LongResumes, !one_packet);
        }
        self.tally.saw_if(Seen::KeptByResume, self.held() != NONE);
        match before.mouse_is_live() {
            true => self.check_within(below(before.thresholds)),
            false => Ok(()),
        }
    }

    /// What was brought and is in no packet yet.
    fn held(&self) -> Pair {
        difference(difference(self.brought, self.said), self.queued)
    }

    fn check_held(&self) -> Result<(), String> {
        match self.settings.paused && self.settings.mouse_is_live() {
            true => self.check_within(HELD_PAUSED),
            false => self.check_within(HELD),
        }
    }

    /// That no more is held, either way, than `most`.
    fn check_within(&self, most: Pair) -> Result<(), String> {
        let held = self.held();
        match [0, 1]
            .into_iter()
            .find(|&axis| held[axis].abs() > most[axis])
        {
            None => Ok(()),
            Some(axis) => Err(format!(
                "{} does not add up: motions brought {}, packets said {}, {} is queued, \
                 so {} would be held where {} is the most",
                AXES[axis],
                self.brought[axis],
                self.said[axis],
                self.queued[axis],
                held[axis],
                most[axis],
            )),
        }
    }

    /// All that was brought must have been said.
    fn close(&mut self) -> Result<(), String> {
        let (brought, said) = (self.brought, self.said);
        if let Some(axis) = [0, 1].into_iter().find(|&axis| brought[axis] != said[axis]) {
            return Err(format!(
                "{} does not add up: motions brought {}, packets said {}",
                AXES[axis], brought[axis], said[axis]
            ));
        }
        self.tally.closed(brought);
        (self.brought, self.said) = (NONE, NONE);
        self.closed = self.entered;
        Ok(())
    }
}

fn sum(a: Pair, b: Pair) -> Pair {
    [a[0] + b[0], a[1] + b[1]]
}

fn difference(a: Pair, b: Pair) -> Pair {
    [a[0] - b[0], a[1] - b[1]]
}

/// The most that may be held where thresholds are applied.
fn below(thresholds: Pair) -> Pair {
    thresholds.map(|threshold| threshold - 1)
}
