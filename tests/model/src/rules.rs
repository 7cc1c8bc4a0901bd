//! What a deliberately wrong variant changes: numbers of document 01, what
//! becomes of held motion that is sent, the map of keys, saved lines, a month's
//! length, the right button with the mouse off, the packets that the host reads,
//! how a long move is split, and what the panel sees and clears. A comparison that
//! finds no difference, and a ledger that adds up, are worth something only if they
//! find these.

use crate::controller::{Answer, Refusal};
use crate::keys::{Keys, LAST};
use crate::limits::{HELD_LIMIT, QUEUE_ROOM};

mod fire;
mod interrogation;
mod look;
mod receiver;
mod saved;
mod splitting;

pub use fire::FireFault;
pub use look::LookFault;
pub use receiver::ReceiverFault;
pub use saved::SavedFault;
pub use splitting::SplitFault;

/// What sends held motion.
#[derive(Clone, Copy, Debug, PartialEq, Eq)]
pub enum Occasion {
    /// Motion that reaches a threshold.
    Motion,
    /// "A button with action 0 to 3 sends all held motion"
    Button,
    /// "then held motion that is due"
    Resume,
}

/// What becomes of held motion that a button or a resume sends.
#[derive(Clone, Copy, Debug, PartialEq, Eq)]
pub enum Sending {
    /// "all is sent", and is held no more.
    Once,
    /// It is sent and stays held. "Reading held motion for a button packet and
    /// clearing it elsewhere" is a trap that document 01 names.
    AndKept,
    /// It is dropped, and a packet without motion is sent.
    Dropped,
    /// The first packet is sent, and the rest is lost.
    FirstPacket,
}

/// What a wrong variant does against request A1.
#[derive(Clone, Copy, Debug, PartialEq, Eq)]
pub enum KeyFault {
    /// Against "the map outlives the reset".
    EmptiedByReset,
    /// A press in a monitoring mode does not enter the map.
    SilentPressLost,
    /// A release in a monitoring mode does not leave the map.
    SilentReleaseLost,
    /// A press while paused does not enter the map.
    PausedPressLost,
    /// The breaks after 0xF0 come highest first.
    HighestFirst,
    /// A press with this refusal enters the map all the same.
    EntersRefused(Refusal),
    /// A reset needs room for 0xF0 alone, and what has none is left out.
    BreaksCut,
    /// The lamp shows one key too few.
    LampTooLow,
    /// The lamp does not see the last key.
    LampWithoutLast,
}

/// The rules by which a state is stepped.
#[derive(Clone, Copy, Debug, PartialEq, Eq)]
pub struct Rules {
    /// How far past its threshold an axis must be to be sent: 0, since "if
    /// either axis reaches its threshold" is enough.
    pub past_threshold: i32,
    /// "a break is the make plus 0x80"
    pub break_bit: u8,
    /// How many bytes the queue takes.
    pub queue_limit: usize,
    /// "February has 29 days when the year divides by 4."
    pub leap_day: u8,
    /// "the month's end" in November.
    pub november_end: u8,
    /// "the month's end" in May.
    pub may_end: u8,
    /// How far held motion may go either way.
    pub held_limit: i32,
    /// "A button with action 0 to 3 sends all held motion"
    pub at_button: Sending,
    /// "then held motion that is due"
    pub at_resume: Sending,
    /// What is wrong with the map of keys, if anything is.
    pub key_fault: Option<KeyFault>,
    /// What is wrong with saved lines, if anything is.
    pub saved_fault: Option<SavedFault>,
    /// What is wrong with the right button with the mouse off, if anything is.
    pub fire_fault: Option<FireFault>,
    /// What is wrong with the host's side of the wire, if anything is.
    pub receiver_fault: Option<ReceiverFault>,
    /// What is wrong with how a long move is split, if anything is.
    pub split_fault: Option<SplitFault>,
    /// What is wrong with the look, the clearing or the interrogation, if anything
    /// is.
    pub look_fault: Option<LookFault>,
}

impl Rules {
    /// The rules as documents 01 and 02 state them.
    pub const DOCUMENT: Rules = Rules {
        past_threshold: 0,
        break_bit: 0x80,
        queue_limit: QUEUE_ROOM,
        leap_day: 29,
        november_end: 30,
        may_end: 31,
        held_limit: HELD_LIMIT,
        at_button: Sending::Once,
        at_resume: Sending::Once,
        key_fault: None,
        saved_fault: None,
        fire_fault: None,
        receiver_fault: None,
        split_fault: None,
        look_fault: None,
    };

    /// Variant `number`, wrong in one place; any other number is the documents.
    pub fn wrong(number: u32) -> Rules {
        let mut rules = Rules::DOCUMENT;
        match number {
            1 => rules.past_threshold = 1,
            2 => rules.break_bit = 0,
            3 => rules.queue_limit = QUEUE_ROOM - 1,
            4 => rules.leap_day = 28,
            5 => rules.held_limit = HELD_LIMIT - 1,
            6 => rules.at_button = Sending::AndKept,
            7 => rules.at_resume = Sending::AndKept,
            8 => rules.at_button = Sending::Dropped,
            9 => rules.at_resume = Sending::FirstPacket,
            10..=19 => rules.key_fault = wrong_with_keys(number),
            36 => rules.november_end = 31,
            37 => rules.may_end = 32,
            38..=49 => rules.fire_fault = fire::wrong_with_the_fire_button(number),
            50..=60 => rules.receiver_fault = receiver::wrong_with_the_receiver(number),
            61..=70 => rules.split_fault = splitting::wrong_with_splitting(number),
            71.. => rules.look_fault = look::wrong_with_the_look(number),
            _ => rules.saved_fault = saved::wrong_with_saved_lines(number),
        }
        rules
    }

    /// The variant that the environment variable `MODEL_WRONG` asks for.
    pub fn from_environment() -> Rules {
        let number = std::env::var("MODEL_WRONG").ok();
        Rules::wrong(number.and_then(|n| n.parse().ok()).unwrap_or(0))
    }

    /// What becomes of held motion that is sent.
    pub fn sending(&self, occasion: Occasion) -> Sending {
        match occasion {
            Occasion::Motion => Sending::Once,
            Occasion::Button => self.at_button,
            Occasion::Resume => self.at_resume,
        }
    }

    /// The byte of a key event.
    /// "sends its make when down, its break when up"
    pub fn key(&self, make: u8, down: bool) -> u8 {
        if down {
            make
        } else {
            make + self.break_bit
        }
    }

    /// Adds a make and break pair to `out`.
    pub fn push_pair(&self, make: u8, out: &mut Vec<u8>) {
        out.extend_from_slice(&[make, make + self.break_bit]);
    }

    /// Whether the map follows a key event: "Every number but 0 [...] leaves
    /// state and buffer the same."
    pub fn map_follows(&self, answer: Answer, down: bool, paused: bool, monitoring: bool) -> bool {
        match self.key_fault {
            Some(KeyFault::SilentPressLost) if monitoring && down => false,
            Some(KeyFault::SilentReleaseLost) if monitoring && !down => false,
            Some(KeyFault::PausedPressLost) if paused && down => false,
            Some(KeyFault::EntersRefused(refusal)) if down => {
                answer.is_ok() || answer == Err(refusal)
            }
            _ => answer.is_ok(),
        }
    }

    /// Adds to `out` "the break code of each key in the map, lowest first".
    pub fn push_breaks(&self, keys: &Keys, lent: usize, out: &mut Vec<u8>) {
        let breaks = keys.held().map(|code| self.key(code, false));
        match self.key_fault {
            Some(KeyFault::HighestFirst) => out.extend(breaks.rev()),
            Some(KeyFault::BreaksCut) => out.extend(breaks.take(lent.saturating_sub(out.len()))),
            _ => out.extend(breaks),
        }
    }

    /// "the map outlives the reset"
    pub fn map_after_reset(&self, keys: Keys) -> Keys {
        match self.key_fault {
            Some(KeyFault::EmptiedByReset) => Keys::POWER_UP,
            _ => keys,
        }
    }

    /// "A lamp on the board shows how many keys are held"
    pub fn lamp(&self, keys: &Keys) -> u8 {
        match self.key_fault {
            Some(KeyFault::LampTooLow) => keys.count().saturating_sub(1),
            Some(KeyFault::LampWithoutLast) => keys.count() - u8::from(keys.is_down(LAST)),
            _ => keys.count(),
        }
    }
}

/// The variants from 10 on. Those from 16 on show only in a buffer that is too
/// short or in the lamp, so that no line of the text program can tell them.
fn wrong_with_keys(number: u32) -> Option<KeyFault> {
    match number {
        10 => Some(KeyFault::EmptiedByReset),
        11 => Some(KeyFault::SilentPressLost),
        12 => Some(KeyFault::SilentReleaseLost),
        13 => Some(KeyFault::PausedPressLost),
        14 => Some(KeyFault::HighestFirst),
        15 => Some(KeyFault::EntersRefused(Refusal::QueueFull)),
        16 => Some(KeyFault::EntersRefused(Refusal::NoRoom)),
        17 => Some(KeyFault::BreaksCut),
        18 => Some(KeyFault::LampTooLow),
        19 => Some(KeyFault::LampWithoutLast),
        _ => None,
    }
}
