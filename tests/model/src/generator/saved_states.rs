//! Sessions that load and save states: arbitrary ones, followed by inputs, and
//! those that inputs lead to; and now and then a spoiled line.

use super::Generator;
use crate::arbitrary;
use crate::limits::BUFFER;
use crate::program::{Format, Player};
use crate::rules::Rules;
use crate::saved::{LONGEST, SHORTEST};
use crate::spoil::{line_of, spoiled, KINDS};
use crate::text::push_hex;

const SAVE: &str = "?\tsave";

/// Lines that begin as `save` or `load` and are neither, and loads of bytes that
/// are not given in hex.
const BAD_SAVES: &[&str] = &[
    "?\tsave\t",
    "?\tsave\t0A",
    "?\tsave ",
    "?\tsaves",
    "?\tsav",
    "?\tSave",
    "?save",
    "?\t save",
    "?\tsave\tsave",
    "?\tload",
    "?\tload\t",
    "?\tload\t0",
    "?\tload\t0A0",
    "?\tload\t0a",
    "?\tload\t0A\t",
    "?\tload\t0A ",
    "?\tload\t 0A",
    "?\tload\t\t0A",
    "?\tload\t0A\r",
    "?\tload\t-\t",
    "?\tload\t--",
    "?\tload\t-0A",
    "?\tload\t0A-",
    "?\tload\tG0",
    "?\tload\t0x0A",
    "?\tload 0A",
    "?\tLoad\t0A",
    "?\tloads\t0A",
    "?\tloa\t0A",
    "?load\t0A",
    "?\t load\t0A",
];

impl Generator {
    /// A session in which states are loaded and saved.
    pub(super) fn saving_session(&mut self) {
        let start = self.text.len();
        self.line("=\t0");
        let length = 3 + self.random.below(80) as usize;
        let rest = self.left.saturating_sub(length);
        self.left -= rest;
        while self.left > 1 {
            match self.random.below(16) {
                0..=8 => self.loaded(),
                9..=12 => self.spoiled_load(),
                13 => self.bad_save(),
                14 => self.line(SAVE),
                _ => self.scene(),
            }
        }
        self.line(SAVE);
        self.left += rest;
        let lent = self.lent_for(start);
        let head = self.text[start..].split(|&byte| byte == b'\n').next();
        let end = start + head.map_or(0, <[u8]>::len);
        self.text.splice(start..end, format!("=\t{lent}").bytes());
    }

    /// A buffer for a session that starts here in the text: mostly about as long
    /// as the last line that is saved, or long enough for any.
    fn lent_for(&mut self, start: usize) -> usize {
        match self.random.below(12) {
            0..=4 => {
                let length = saved_length(&self.text[start..]);
                length + self.random.pick(&[0, 0, 1, 1, 2]) - 1
            }
            5..=7 => LONGEST,
            8 => LONGEST - 1,
            9 => BUFFER,
            10 => self.random.between(SHORTEST as i32 - 2, LONGEST as i32 + 1) as usize,
            _ => self.random.below(21) as usize,
        }
    }

    pub(super) fn load(&mut self, saved: &[u8]) {
        let mut line = b"?\tload\t".to_vec();
        match saved {
            [] => line.push(b'-'),
            saved => push_hex(saved, &mut line),
        }
        self.raw_line(&line);
    }

    /// An arbitrary state, what inputs make of it, and its line.
    fn loaded(&mut self) {
        let state = arbitrary::state(&mut self.random);
        self.load(&line_of(&state));
        for _ in 0..self.random.below(4) {
            self.played_on();
        }
        self.ask(8);
        self.line(SAVE);
    }

    /// Lines that show what a state holds.
    fn played_on(&mut self) {
        match self.random.below(20) {
            0 | 1 => self.event(),
            2..=4 => self.tick_run(4),
            5 => {
                for _ in 0..=self.random.below(8) {
                    self.sample();
                }
            }
            // What a half-received command waits for, or a command.
            6 | 7 => {
                for _ in 0..=self.random.below(6) {
                    let byte = self.random.byte();
                    self.host(byte);
                }
            }
            8 => self.host(0x01),
            9 => self.motion(),
            10 => self.motion_line(0, 0),
            11 => self.queued_event(),
            12 => self.resume(),
            13 => self.observe(),
            14 | 15 => self.right_button(),
            _ => self.glance(1),
        }
    }

    /// A line that most probably no state writes; power-up is handed back then.
    fn spoiled_load(&mut self) {
        let (kind, _) = self.random.pick(&KINDS);
        if self.left > 0 {
            *self.kinds.entry(kind).or_default() += 1;
        }
        let line = spoiled(&mut self.random, kind);
        self.load(&line);
        match self.random.below(3) {
            0 => self.played_on(),
            _ => self.line(SAVE),
        }
    }

    fn bad_save(&mut self) {
        let line = self.random.pick(BAD_SAVES);
        self.line(line);
    }
}

/// How long the line is that a session saves last, if its buffers are long.
fn saved_length(session: &[u8]) -> usize {
    let mut player = Player::new(Format::Vectors, Rules::DOCUMENT, BUFFER);
    let mut length = SHORTEST;
    for line in session.split(|&byte| byte == b'\n').skip(1) {
        player.play(line, &mut Vec::new());
        if line == SAVE.as_bytes() {
            length = player.written();
        }
    }
    length
}
