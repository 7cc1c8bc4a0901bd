//! Sessions made at random, the same for the same seed.
//!
//! A session is a row of scenes. A scene is a few lines that belong together,
//! such as a pause with events and a command that resumes; the weights see to
//! it that a long session visits every mode and meets every answer.

use std::collections::BTreeMap;

use crate::limits::{BUFFER, HELD_LIMIT, QUEUE_ROOM};
use crate::program::Format;
use crate::random::Random;
use crate::spoil::Kind;

mod fire_button;
mod looks;
mod queued_reports;
mod saved_states;
mod stuck_keys;

/// A session of `lines` lines; in the format of vectors, many short ones.
pub fn session(seed: u64, lines: usize, format: Format) -> Vec<u8> {
    session_and_kinds(seed, lines, format).0
}

/// The same, and how often lines of each kind of spoiling are loaded in it.
pub fn session_and_kinds(
    seed: u64,
    lines: usize,
    format: Format,
) -> (Vec<u8>, BTreeMap<Kind, u64>) {
    let mut generator = Generator {
        random: Random::new(seed),
        format,
        text: Vec::new(),
        left: lines,
        kinds: BTreeMap::new(),
    };
    while generator.left > 0 {
        match format {
            Format::Text => generator.scene(),
            Format::Vectors if generator.random.one_in(4) => generator.saving_session(),
            Format::Vectors if generator.random.one_in(5) => generator.looking_session(),
            Format::Vectors => generator.short_session(),
        }
    }
    let kinds = std::mem::take(&mut generator.kinds);
    (generator.finish(), kinds)
}

type Scene = fn(&mut Generator);

const SCENES: &[(u64, Scene)] = &[
    (300, Generator::commands),
    (300, Generator::events),
    (40, Generator::ticks),
    (120, Generator::settle),
    (160, Generator::pause),
    (24, Generator::full_queue),
    (30, Generator::full_queue_of_packets),
    (24, Generator::full_motion),
    (3, Generator::longest_resume),
    (50, Generator::repeats),
    (1, Generator::long_closure),
    (40, Generator::monitoring),
    (40, Generator::fire_monitoring),
    (9, Generator::month_end),
    (40, Generator::clock),
    (3, Generator::hundredths),
    (70, Generator::absolute),
    (40, Generator::buttons),
    (40, Generator::bad_lines),
    (60, Generator::edges),
    (8, Generator::memory),
    (50, Generator::inquiries),
    (90, Generator::observe),
    (40, Generator::roles),
    (30, Generator::stuck_keys),
    (4, Generator::no_keys),
    (70, Generator::fire_button),
    (16, Generator::fire_at_a_full_queue),
];

/// The commands, and how often each comes.
const COMMANDS: &[(u64, u8)] = &[
    (12, 0x07),
    (6, 0x08),
    (8, 0x09),
    (8, 0x0A),
    (12, 0x0B),
    (10, 0x0C),
    (10, 0x0D),
    (8, 0x0E),
    (6, 0x0F),
    (6, 0x10),
    (8, 0x11),
    (4, 0x12),
    (10, 0x13),
    (7, 0x14),
    (6, 0x15),
    (8, 0x16),
    (5, 0x17),
    (4, 0x18),
    (8, 0x19),
    (4, 0x1A),
    (6, 0x1B),
    (6, 0x1C),
    (1, 0x20),
    (2, 0x21),
    (2, 0x22),
    (4, 0x80),
    (3, 0x87),
    (2, 0x88),
    (1, 0x89),
    (1, 0x8A),
    (3, 0x8B),
    (3, 0x8C),
    (2, 0x8F),
    (1, 0x90),
    (3, 0x92),
    (2, 0x94),
    (1, 0x95),
    (1, 0x96),
    (1, 0x99),
    (3, 0x9A),
];

const INQUIRIES: &[u8] = &[
    0x87, 0x88, 0x89, 0x8A, 0x8B, 0x8C, 0x8F, 0x90, 0x92, 0x94, 0x95, 0x96, 0x99, 0x9A,
];

/// Codes that do nothing, some of them next to codes that do.
const NOTHING: &[u8] = &[
    0x00, 0x01, 0x06, 0x1D, 0x1E, 0x1F, 0x23, 0x48, 0x7F, 0x81, 0x86, 0x8D, 0x8E, 0x91, 0x93, 0x97,
    0x98, 0x9B, 0x9C, 0xA0, 0xF0, 0xFF,
];

/// Lines that no rule of the grammar allows.
const BAD_LINES: &[&str] = &[
    "",
    " ",
    "\t",
    "\r",
    "\0",
    "B",
    "B\t",
    "B\t1",
    "B\t123",
    "B\t1e",
    "B\tG0",
    "B\t-1",
    "B\t13\t",
    "B\t13\t0",
    "B\t\t13",
    "B 13",
    "B\t13 ",
    " B\t13",
    "\tB\t13",
    "b\t13",
    "BB\t13",
    "B\t0x13",
    "K",
    "K\t1E",
    "K\t1E\t",
    "K\t1E\t2",
    "K\t1E\t01",
    "K\t1E\t-0",
    "K\t1E\t-1",
    "K\t1E\t+1",
    "K\t1E\t1\t",
    "K\t1E\t1\t1",
    "K\t1e\t1",
    "K\t1E\tA",
    "K\tE\t1",
    "K\t01E\t1",
    "K\t-1\t1",
    "k\t1E\t1",
    "L",
    "L\t",
    "L\t2",
    "L\t-0",
    "L\t00",
    "L\t1\t",
    "L\t1\t1",
    "l\t1",
    "R",
    "R\t+1",
    "R\t10",
    "R\t0\t0",
    "r\t0",
    "M",
    "M\t1",
    "M\t1\t",
    "M\t\t1",
    "M\t1\t2\t",
    "M\t1\t2\t3",
    "M\t+1\t0",
    "M\t0\t+1",
    "M\t00001\t0",
    "M\t0\t10000",
    "M\t-00001\t0",
    "M\t-\t0",
    "M\t0\t-",
    "M\t--1\t0",
    "M\t1-\t0",
    "M\t- 1\t0",
    "M\t 1\t0",
    "M\t1 \t0",
    "M\t1,5\t0",
    "M\tA\t0",
    "M\t0x1\t0",
    "m\t1\t0",
    "S",
    "S\t0",
    "S\t0\t1",
    "S\t0\t1\t",
    "S\t0\t1\t1\t",
    "S\t0\t1\t1\t0",
    "S\t00000\t1\t1",
    "S\t0\t00001\t1",
    "S\t0\t1\t00001",
    "S\t0\tF\t1",
    "s\t0\t1\t1",
    "F",
    "F\t",
    "F\t1\t",
    "F\t1\t1",
    "F\t00001",
    "F\t+1",
    "f\t1",
    "T\t",
    "T\t1",
    "T ",
    "TT",
    "T\r",
    "T\0",
    "t",
    "Q\t1",
    "#",
    "=",
    "line\tanswer\tbytes",
    "1\t0\t-",
    "\u{e9}\t1",
];

const QUEUE: &str = "?\tqueue";
const LAMP: &str = "?\tlamp";

/// Lines that begin as a question and are none.
const BAD_QUESTIONS: &[&str] = &[
    "?",
    "?\t",
    "? ",
    "??",
    "?\tQueue",
    "?\tQUEUE",
    "?\tqueue\t",
    "?\tqueue ",
    "?\tqueue\r",
    "?\tqueue\0",
    "?\tqueue\tqueue",
    "?\tqueues",
    "?\tqueu",
    "?\tueue",
    "?\t queue",
    "?\t\tqueue",
    "?queue",
    "? queue",
    "??\tqueue",
    "?\t?",
    "?\t1E",
    "?\tB\t13",
    "?\tno question has a word as long as this one is",
    "?\tLamp",
    "?\tLAMP",
    "?\tlamp\t",
    "?\tlamp ",
    "?\tlamp\r",
    "?\tlamps",
    "?\tlam",
    "?\tamp",
    "?\tlamp\tlamp",
    "?\tlamp\tqueue",
    "?\t lamp",
    "?lamp",
    "? lamp",
];

const MONTH_ENDS: &[[u8; 2]] = &[
    [0x01, 0x31],
    [0x02, 0x28],
    [0x02, 0x29],
    [0x03, 0x31],
    [0x04, 0x30],
    [0x06, 0x30],
    [0x09, 0x30],
    [0x11, 0x30],
    [0x12, 0x31],
];

/// The years about a leap year and about the turn of the century.
const YEARS: &[u8] = &[0x00, 0x01, 0x03, 0x04, 0x10, 0x12, 0x84, 0x85, 0x96, 0x99];

const DOWN_THEN_UP: [bool; 2] = [true, false];

/// The queue's room, to count lines with.
const ROOM: i32 = QUEUE_ROOM as i32;
/// How many motions of 64 may be held, and what is left of the limit then.
const WHOLE_MOTIONS: i32 = HELD_LIMIT / 64;
const LAST_MOTION: i32 = HELD_LIMIT % 64;

struct Generator {
    random: Random,
    format: Format,
    text: Vec<u8>,
    left: usize,
    kinds: BTreeMap<Kind, u64>,
}

impl Generator {
    /// The text; half of the sessions end without a line feed.
    fn finish(mut self) -> Vec<u8> {
        let last = self.text.split(|&byte| byte == b'\n').nth_back(1);
        let removable = last.is_some_and(|line| !line.is_empty() && line[0] != b'=');
        if removable && self.random.one_in(2) {
            self.text.pop();
        }
        self.text
    }

    fn raw_line(&mut self, line: &[u8]) {
        if self.left > 0 {
            self.left -= 1;
            self.text.extend_from_slice(line);
            self.text.push(b'\n');
        }
    }

    fn line(&mut self, line: &str) {
        self.raw_line(line.as_bytes());
    }

    fn scene(&mut self) {
        let scene = self.random.weighted(SCENES);
        scene(self);
    }

    /// A head with a buffer length, then a few scenes.
    fn short_session(&mut self) {
        let lent = match self.random.below(8) {
            0 => BUFFER - 1,
            1 => BUFFER,
            2 => self.random.below(3) as usize,
            _ => self.random.below(21) as usize,
        };
        // Some have a buffer for keys that a reset names, and begin with them.
        let keys = self.random.below(16) < 3;
        let lent = if keys { self.lent_for_keys() } else { lent };
        self.line(&format!("=\t{lent}"));
        if lent + 1 >= BUFFER {
            match self.random.below(40) {
                0 => self.longest_resume(),
                1..=4 => self.fire_at_a_full_queue(),
                _ => {}
            }
        }
        if keys {
            self.keys_for(lent);
        } else if lent < 3 && self.random.one_in(2) {
            // Room for nothing, for a key, or for a packet of the fire button.
            self.fire_button();
        }
        // Some have lines enough to fill the queue twice; the more, the rarer.
        let longest = match self.random.one_in(QUEUE_ROOM as u64 / 20) {
            true => 2 * QUEUE_ROOM as u64 + 44,
            false => 50,
        };
        let length = 3 + self.random.below(longest) as usize;
        let rest = self.left.saturating_sub(length);
        self.left -= rest;
        while self.left > 0 {
            self.scene();
        }
        self.left = rest;
    }

    // Single lines.

    /// Asks once in `count` times: mostly what waits in the queue, now and then
    /// how many keys are held, or badly. The panel looks more rarely.
    fn ask(&mut self, count: u64) {
        let question = match self.random.below(12) {
            0 => self.random.pick(BAD_QUESTIONS),
            1 | 2 => LAMP,
            _ => QUEUE,
        };
        self.question(question, count);
        self.glance(4 * count);
    }

    /// A question, once in `count` times. The text program has none.
    fn question(&mut self, question: &str, count: u64) {
        if self.format == Format::Vectors && self.random.one_in(count) {
            self.line(question);
        }
    }

    fn host(&mut self, byte: u8) {
        self.line(&format!("B\t{byte:02X}"));
    }

    /// A number as it is written: now and then with zeros before it.
    fn number(&mut self, number: i32) -> String {
        match self.random.below(60) {
            0 if number.abs() < 100 => {
                let sign = if number < 0 { "-" } else { "" };
                format!("{sign}{:04}", number.abs())
            }
            1 if number == 0 => String::from("-0"),
            2 if (0..100).contains(&number) => format!("{number:03}"),
            _ => number.to_string(),
        }
    }

    fn key_line(&mut self, code: u8, down: bool) {
        self.line(&format!("K\t{code:02X}\t{}", u8::from(down)));
    }

    fn button_line(&mut self, button: char, down: bool) {
        self.line(&format!("{button}\t{}", u8::from(down)));
    }

    fn motion_line(&mut self, dx: i32, dy: i32) {
        let (dx, dy) = (self.number(dx), self.number(dy));
        self.line(&format!("M\t{dx}\t{dy}"));
    }

    fn stick_line(&mut self, stick: i32, position: i32, trigger: i32) {
        let numbers = [stick, position, trigger].map(|number| self.number(number));
        self.line(&format!("S\t{}", numbers.join("\t")));
    }

    fn sample_line(&mut self, bit: i32) {
        let bit = self.number(bit);
        self.line(&format!("F\t{bit}"));
    }

    // Events.

    fn key(&mut self) {
        let code = match self.random.below(4) {
            0 => self.random.pick(&[0x01, 0x02, 0x71, 0x72]),
            1 => 0x1E,
            _ => self.random.between(1, 0x72) as u8,
        };
        let down = self.random.one_in(2);
        self.key_line(code, down);
    }

    fn button(&mut self) {
        let button = self.random.pick(&['L', 'R']);
        let down = self.random.one_in(2);
        self.button_line(button, down);
    }

    fn distance(&mut self) -> i32 {
        match self.random.below(8) {
            0 | 1 => 0,
            2 | 3 => self.random.between(-3, 3),
            4 => self.random.between(-12, 12),
            5 | 6 => self.random.between(-64, 64),
            _ => self.random.pick(&[-64, -63, -33, 33, 63, 64]),
        }
    }

    fn motion(&mut self) {
        let (dx, dy) = (self.distance(), self.distance());
        self.motion_line(dx, dy);
    }

    fn position(&mut self) -> i32 {
        match self.random.below(3) {
            0 => self.random.pick(&[0, 1, 2, 4, 8]),
            1 => self.random.pick(&[0, 5, 6, 9, 10]),
            _ => self.random.between(0, 15),
        }
    }

    fn stick(&mut self) {
        let (stick, position) = (self.random.between(0, 1), self.position());
        let trigger = i32::from(self.random.one_in(3));
        self.stick_line(stick, position, trigger);
    }

    fn sample(&mut self) {
        let bit = self.random.between(0, 1);
        self.sample_line(bit);
    }

    fn tick(&mut self) {
        self.line("T");
    }

    fn tick_run(&mut self, longest: u64) {
        for _ in 0..=self.random.below(longest) {
            self.tick();
        }
    }

    /// An event with numbers at an edge of their range and past it.
    fn edge(&mut self) {
        const DISTANCES: &[i32] = &[-9999, -100, -65, -64, 0, 1, 64, 65, 100, 9999];
        match self.random.below(4) {
            0 => {
                let codes = [
                    0x00, 0x01, 0x72, 0x73, 0x74, 0x75, 0x7F, 0x80, 0x81, 0xF2, 0xFF,
                ];
                let (code, down) = (self.random.pick(&codes), self.random.one_in(2));
                self.key_line(code, down);
            }
            1 => {
                let (dx, dy) = (self.random.pick(DISTANCES), self.random.pick(DISTANCES));
                self.motion_line(dx, dy);
            }
            2 => {
                let stick = self.random.pick(&[-1, 0, 0, 1, 1, 2, 9999]);
                let position = self.random.pick(&[-9999, -1, 0, 1, 8, 15, 16, 128]);
                let trigger = self.random.pick(&[-1, 0, 0, 1, 1, 2, 128]);
                self.stick_line(stick, position, trigger);
            }
            _ => {
                let bit = self.random.pick(&[-9999, -1, 0, 1, 2, 9999]);
                self.sample_line(bit);
            }
        }
        self.ask(12);
    }

    fn event(&mut self) {
        match self.random.below(100) {
            0 => self.bad_line(),
            1..=4 => self.edge(),
            5..=24 => self.key(),
            25..=44 => self.button(),
            45..=70 => self.motion(),
            71..=86 => self.stick(),
            87..=90 => self.sample(),
            _ => self.tick(),
        }
        self.ask(40);
    }

    // Commands.

    /// A number of a threshold, scale, delta or rate.
    fn amount(&mut self) -> u8 {
        match self.random.below(8) {
            0 => 0,
            1..=4 => self.random.between(1, 6) as u8,
            5 => self.random.between(7, 20) as u8,
            6 => self.random.pick(&[63, 64, 65, 127, 128, 129, 254, 255]),
            _ => self.random.byte(),
        }
    }

    fn coordinate(&mut self) -> [u8; 2] {
        match self.random.below(6) {
            0 => [0, self.random.below(4) as u8],
            1 | 2 => [0, self.random.below(80) as u8],
            3 => self
                .random
                .pick(&[[0x01, 0x3F], [0x00, 0xC7], [0x02, 0x7F]]),
            4 => self
                .random
                .pick(&[[0x00, 0xFF], [0x01, 0x00], [0xFF, 0xFF]]),
            _ => [self.random.byte(), self.random.byte()],
        }
    }

    fn position_bytes(&mut self) -> Vec<u8> {
        [self.coordinate(), self.coordinate()].concat()
    }

    /// A length of time in tenths of a second.
    fn tenths(&mut self) -> u8 {
        match self.random.below(8) {
            0 | 1 => 0,
            2..=4 => 1,
            5 | 6 => self.random.between(2, 3) as u8,
            _ => self.random.byte(),
        }
    }

    /// A byte of the clock: in its range, near it, or anything.
    fn clock_byte(&mut self, first: u8, last: u8) -> u8 {
        let number = self.random.between(first.into(), last.into()) as u8;
        match self.random.below(10) {
            0 => 0xFF,
            1 => self.random.byte(),
            2 => packed(last + 1),
            3 => packed(first).wrapping_sub(1),
            4 => packed(number) & 0xF0 | self.random.between(10, 15) as u8,
            5 => packed(number) & 0x0F | (self.random.between(10, 15) as u8) << 4,
            _ => packed(number),
        }
    }

    fn clock_bytes(&mut self) -> Vec<u8> {
        const RANGES: [(u8, u8); 6] = [(0, 99), (1, 12), (1, 31), (0, 23), (0, 59), (0, 59)];
        RANGES
            .iter()
            .map(|&(first, last)| self.clock_byte(first, last))
            .collect()
    }

    fn parameters(&mut self, code: u8) -> Vec<u8> {
        match code {
            0x07 => vec![match self.random.below(12) {
                0 => self.random.between(5, 8) as u8,
                1 => self.random.byte(),
                2..=4 => 4,
                _ => self.random.between(0, 3) as u8,
            }],
            0x09 => self.position_bytes(),
            0x0A..=0x0C => vec![self.amount(), self.amount()],
            0x0E => {
                let filler = self.random.pick(&[0x00, 0x01, 0x80, 0xFF]);
                [vec![filler], self.position_bytes()].concat()
            }
            0x17 => vec![self.amount()],
            0x19 => (0..6).map(|_| self.tenths()).collect(),
            0x1B => self.clock_bytes(),
            0x20 => {
                let count = self.data_count();
                let mut bytes = vec![self.random.byte(), self.random.byte(), count];
                bytes.extend((0..count).map(|_| self.any_code()));
                bytes
            }
            0x21 | 0x22 => vec![self.any_code(), self.any_code()],
            0x80 => vec![match self.random.below(3) {
                0 => 0x01,
                _ => self.any_code(),
            }],
            _ => Vec::new(),
        }
    }

    /// How many data bytes a memory load has.
    fn data_count(&mut self) -> u8 {
        match self.random.below(20) {
            0..=4 => 0,
            5..=16 => self.random.between(1, 6) as u8,
            17 | 18 => self.random.between(7, 40) as u8,
            _ => self.random.pick(&[127, 128, 129, 254, 255]),
        }
    }

    /// A byte that would be a command if it were read as one.
    fn any_code(&mut self) -> u8 {
        match self.random.below(4) {
            0 => self.random.byte(),
            1 => self.random.pick(NOTHING),
            _ => self.random.weighted(COMMANDS),
        }
    }

    /// A command, now and then with events between its bytes, and rarely with
    /// bytes lacking.
    fn command(&mut self, code: u8) {
        let parameters = self.parameters(code);
        self.host(code);
        for &parameter in &parameters {
            if self.random.one_in(12) {
                self.event();
            }
            if self.random.one_in(600) {
                return;
            }
            self.host(parameter);
        }
        if code == 0x80 {
            self.ask(2);
        }
    }

    /// A command with these parameters.
    fn exactly(&mut self, bytes: &[u8]) {
        for &byte in bytes {
            self.host(byte);
        }
    }

    fn any_command(&mut self) {
        match self.random.below(20) {
            0 => {
                let code = self.random.pick(NOTHING);
                self.host(code);
            }
            1 if self.random.one_in(4) => {
                let byte = self.random.byte();
                self.host(byte);
            }
            _ => {
                let code = self.random.weighted(COMMANDS);
                self.command(code);
            }
        }
    }

    /// What ends a pause: mostly something, of every kind.
    fn resume(&mut self) {
        match self.random.below(6) {
            0 => self.host(0x11),
            1 => {
                let inquiry = self.random.pick(INQUIRIES);
                self.host(inquiry);
            }
            2 => {
                let code = self
                    .random
                    .pick(&[0x08, 0x09, 0x0A, 0x12, 0x14, 0x15, 0x19, 0x1A]);
                self.command(code);
            }
            _ => {
                self.any_command();
                if self.random.one_in(2) {
                    self.any_command();
                }
            }
        }
    }

    // Scenes.

    fn commands(&mut self) {
        for _ in 0..=self.random.below(3) {
            self.any_command();
        }
    }

    fn events(&mut self) {
        for _ in 0..=self.random.below(11) {
            self.event();
        }
    }

    fn ticks(&mut self) {
        let longest = if self.random.one_in(12) { 230 } else { 30 };
        self.tick_run(longest);
    }

    /// A pair of modes, settings, a role, and events in them.
    fn settle(&mut self) {
        let mouse = self.random.pick(&[0x08, 0x09, 0x0A]);
        let sticks = self.random.pick(&[0x14, 0x15, 0x17, 0x18, 0x19]);
        self.command(mouse);
        self.command(sticks);
        for code in [0x0B, 0x0C, 0x07, 0x0F, 0x10, 0x12, 0x1A] {
            if self.random.one_in(4) {
                self.command(code);
            }
        }
        if self.random.one_in(2) {
            let code = self.random.pick(&[0x07, 0x0B, 0x0F, 0x10]);
            self.command(code);
        }
        self.events();
        self.events();
        if self.random.one_in(3) {
            self.tick_run(40);
        }
    }

    fn pause(&mut self) {
        self.host(0x13);
        for _ in 0..=self.random.below(14) {
            self.event();
            self.ask(8);
            if self.random.one_in(14) {
                let code = self
                    .random
                    .pick(&[0x13, 0x00, 0x0D, 0x16, 0x20, 0x21, 0x97]);
                self.command(code);
            }
        }
        if self.random.one_in(5) {
            self.retry();
        } else {
            self.ask(3);
            self.resume();
        }
        self.ask(3);
        if self.random.one_in(2) {
            self.observe();
        }
    }

    /// A command that answers; if its bytes and those of the resume together
    /// are refused, each may yet be taken alone.
    fn retry(&mut self) {
        let code = match self.random.below(3) {
            0 => 0x0D,
            1 => self.random.pick(&[0x16, 0x1C]),
            _ => self.random.pick(INQUIRIES),
        };
        for code in [code, 0x11, code] {
            self.host(code);
            self.ask(3);
        }
    }

    /// Enough paused bytes to fill the queue, in a mode that queues them.
    fn full_queue(&mut self) {
        for codes in [[0x08, 0x09, 0x0A], [0x14, 0x15, 0x19], [0x07, 0x0F, 0x0B]] {
            if self.random.one_in(2) {
                let code = self.random.pick(&codes);
                self.command(code);
            }
        }
        self.host(0x13);
        let other = self.random.pick(&[2, 4, 8, 60]);
        for _ in 0..self.random.between(ROOM - 18, ROOM) {
            match self.random.below(other) {
                0 => self.queued_event(),
                _ => self.key(),
            }
        }
        for _ in 0..self.random.between(4, 16) {
            self.queued_event();
            self.ask(6);
        }
        // A reset tells which of the keys were taken.
        match self.random.one_in(6) {
            true => self.reset(),
            false => self.resume(),
        }
        self.ask(2);
        self.events();
    }

    /// The same with packets of several bytes, which may not fit whole.
    fn full_queue_of_packets(&mut self) {
        if self.random.one_in(2) {
            self.command(0x09);
            self.exactly(&[0x07, 0x03, 0x13]);
            let reports = ROOM / 6; // of six bytes each
            for number in 0..self.random.between(reports - 2, reports + 1) {
                let button = self.random.pick(&['L', 'L', 'R']);
                self.button_line(button, number % 2 == 0);
            }
        } else {
            self.command(0x19);
            self.host(0x13);
            let moves = ROOM / 5; // of two pairs and a trigger each
            for number in 0..self.random.between(moves - 2, moves + 1) {
                self.stick_line(0, if number % 2 == 0 { 9 } else { 6 }, (number + 1) % 2);
            }
        }
        for _ in 0..self.random.between(2, 8) {
            self.queued_event();
            self.ask(6);
        }
        self.resume();
        self.ask(2);
    }

    fn queued_event(&mut self) {
        match self.random.below(8) {
            0 => self.key(),
            1..=3 => self.button(),
            4 | 5 => self.stick(),
            6 => self.motion(),
            _ => self.event(),
        }
    }

    /// Paused motion up to its limit and back, on one axis or both.
    fn full_motion(&mut self) {
        match self.random.below(5) {
            0 => self.command(0x0A),
            1 => self.exactly(&[0x0A, 1, 1]),
            2 => self.command(0x0B),
            _ => self.exactly(&[0x08]),
        }
        if self.random.one_in(2) {
            let origin = self.random.pick(&[0x0F, 0x10]);
            self.host(origin);
        }
        if self.random.one_in(3) {
            self.motion();
        }
        self.host(0x13);
        let (dx, dy) = self.random.pick(&[
            (64, 0),
            (-64, 0),
            (0, 64),
            (0, -64),
            (64, 64),
            (-64, 64),
            (64, -64),
        ]);
        for _ in 0..WHOLE_MOTIONS {
            self.motion_line(dx, dy);
        }
        let (near, far) = (dx.signum(), dy.signum());
        self.motion_line(LAST_MOTION * near, LAST_MOTION * far);
        for _ in 0..=self.random.below(6) {
            match self.random.below(5) {
                0 => self.motion_line(near, 0),
                1 => self.motion_line(0, far),
                2 => self.motion_line(-near, -far),
                3 => self.motion_line(near, far),
                _ => self.event(),
            }
            self.ask(12);
        }
        self.resume();
        self.motion_line(0, 0);
    }

    /// The most bytes that are ever due at once, and near it.
    fn longest_resume(&mut self) {
        self.exactly(&[0x0A, 0x01, 0x01, 0x13]);
        for _ in 0..self.random.between(ROOM - 1, ROOM + 1) {
            self.key();
        }
        let (across, along) = (self.random.pick(&[1, -1]), self.random.pick(&[1, -1]));
        for _ in 0..WHOLE_MOTIONS {
            self.motion_line(64 * across, 64 * along);
        }
        self.motion_line(LAST_MOTION * across, LAST_MOTION * along);
        self.ask(2);
        self.host(0x88);
        self.ask(2);
        self.host(0x11);
        self.ask(2);
    }

    /// Joystick keycode mode with short times.
    fn repeats(&mut self) {
        self.command(0x19);
        for _ in 0..=self.random.below(5) {
            let (position, trigger) = (self.position(), i32::from(self.random.one_in(4)));
            self.stick_line(0, position, trigger);
            if self.random.one_in(20) {
                self.tick_run(400);
            } else {
                self.tick_run(35);
            }
            match self.random.below(16) {
                0 => self.host(0x0F),
                1 => self.host(0x1A),
                2 => self.pause(),
                3 => self.exactly(&[0x16, 0x94]),
                4 => self.command(0x19),
                5 => self.exactly(&[0x0F, 0x16, 0x94, 0x9A]),
                6 => self.stick(),
                7 => {
                    // The counts stand still while port 0 is a mouse.
                    self.host(0x0F);
                    self.tick_run(8);
                    let position = self.position();
                    self.stick_line(0, position, 0);
                    self.tick_run(8);
                    let code = self.random.pick(&[0x1A, 0x16, 0x11]);
                    self.host(code);
                }
                8 | 9 => {
                    // They stand still while paused, and then go on.
                    self.host(0x13);
                    self.tick_run(5);
                    self.host(0x11);
                    self.tick_run(25);
                }
                _ => {}
            }
        }
    }

    /// A stick closed until its age stops, past the longest breakpoint.
    fn long_closure(&mut self) {
        if self.random.one_in(2) {
            return;
        }
        let before = self.random.pick(&[0, 0, 50, 255]);
        let after = self.random.pick(&[0, 1, 1, 1]);
        self.exactly(&[0x19, 0xFF, 0xFF, before, before, after, after]);
        let position = self.random.pick(&[1, 4, 8, 10]);
        self.stick_line(0, position, 0);
        for _ in 0..self.random.between(2540, 2580) {
            self.tick();
        }
    }

    fn monitoring(&mut self) {
        let rate = self.random.pick(&[0, 0, 1, 2, 3, 4, 5, 10, 255]);
        self.exactly(&[0x17, rate]);
        for _ in 0..=self.random.below(6) {
            self.stick();
            self.tick_run(8);
            match self.random.below(10) {
                0 => self.pause(),
                1 => self.event(),
                2 => self.any_command(),
                3 => self.exactly(&[0x17, rate]),
                4 => self.exactly(&[0x13, 0x11]),
                _ => {}
            }
        }
    }

    fn fire_monitoring(&mut self) {
        self.host(0x18);
        for _ in 0..=self.random.below(5) {
            for _ in 0..=self.random.below(14) {
                self.sample();
            }
            match self.random.below(10) {
                0 => self.pause(),
                1 => self.event(),
                2 => self.any_command(),
                3 => self.host(0x18),
                4 => self.exactly(&[0x13, 0x11]),
                _ => {}
            }
        }
    }

    /// The second before a month's end goes by.
    fn month_end(&mut self) {
        let [month, day] = match self.random.below(4) {
            0 => [0x12, 0x31],
            _ => self.random.pick(MONTH_ENDS),
        };
        let year = match self.random.below(4) {
            0 => self.random.pick(&[0x98, 0x99]),
            _ => self.random.pick(YEARS),
        };
        let (hour, minute) = match self.random.below(4) {
            0 => self
                .random
                .pick(&[(0x22, 0x59), (0x23, 0x58), (0x09, 0x59), (0x19, 0x09)]),
            _ => (0x23, 0x59),
        };
        self.exactly(&[0x1B, year, month, day, hour, minute, 0x59]);
        if self.random.one_in(8) {
            self.host(0x13);
        }
        for _ in 0..self.random.between(98, 101) {
            self.tick();
        }
        self.exactly(&[0x1C, 0x1C]);
    }

    fn clock(&mut self) {
        for _ in 0..=self.random.below(3) {
            match self.random.below(4) {
                0 => {
                    let year = self.random.pick(YEARS);
                    let day = self.random.pick(&[0x28, 0x29, 0x30, 0x31]);
                    self.exactly(&[0x1B, year, 0x02, day, 0x23, 0x59, 0x59]);
                }
                1 => {
                    let [month, day] = self.random.pick(MONTH_ENDS);
                    let (year, month) = (self.random.pick(&[0xFF, 0x00, 0x03, 0x84]), month);
                    let day = self.random.pick(&[day, 0x31, 0xFF]);
                    self.exactly(&[0x1B, year, month, day, 0xFF, 0xFF, 0xFF]);
                }
                _ => self.command(0x1B),
            }
            self.host(0x1C);
        }
    }

    /// Ticks with the clock asked after each, so that a second's end is seen.
    fn hundredths(&mut self) {
        if self.random.one_in(2) {
            self.tick_run(90);
            let code = self.random.pick(&[0x01, 0x01, 0x02]);
            self.exactly(&[0x80, code]);
        }
        for _ in 0..self.random.between(20, 101) {
            self.tick();
            self.host(0x1C);
        }
    }

    fn absolute(&mut self) {
        self.command(0x09);
        if self.random.one_in(2) {
            self.command(0x0C);
        }
        for _ in 0..=self.random.below(16) {
            match self.random.below(10) {
                0..=3 => self.motion(),
                4 | 5 => self.button(),
                6 => self.command(0x0E),
                7 => self.command(0x07),
                8 => self.host(0x0D),
                _ => self.event(),
            }
        }
        if self.random.one_in(3) {
            self.host(0x13);
            for _ in 0..=self.random.below(12) {
                self.queued_event();
            }
            self.exactly(&[0x0D, 0x11]);
        }
        self.host(0x0D);
    }

    /// Presses and releases, with motion held below the threshold.
    fn buttons(&mut self) {
        if self.random.one_in(2) {
            self.command(0x07);
        }
        if self.random.one_in(2) {
            self.exactly(&[0x0B, 200, 200]);
        }
        for _ in 0..=self.random.below(4) {
            let button = self.random.pick(&['L', 'R']);
            for down in DOWN_THEN_UP {
                self.motion();
                self.button_line(button, down);
            }
        }
    }

    fn bad_line(&mut self) {
        match self.random.below(20) {
            0 => {
                let length = self.random.pick(&[20, 31, 32, 33, 64, 255, 256, 300, 1000]);
                let filler = self.random.pick(b"T01 \t-A\r\0");
                self.raw_line(&vec![filler; length]);
            }
            1 => self.long_line(),
            2 => {
                let length = self.random.below(12);
                let line: Vec<u8> = (0..length).map(|_| self.random.byte()).collect();
                self.raw_line(&one_line(line));
            }
            3..=7 => self.spoiled_line(),
            8 if self.format == Format::Text => self.line(&format!("=\t{BUFFER}")),
            9 if self.format == Format::Text => {
                let line = self.random.pick(&[QUEUE, LAMP]);
                self.line(line);
            }
            10 => {
                let line = self.random.pick(BAD_QUESTIONS);
                self.line(line);
            }
            _ => {
                let line = self.random.pick(BAD_LINES);
                self.line(line);
            }
        }
    }

    /// A good line with much after it; rarely more than any block holds.
    fn long_line(&mut self) {
        let length = match self.random.below(60) {
            0 => self.random.pick(&[65_535, 65_536, 70_000, 300_000]),
            _ => self.random.below(200) as usize + 4,
        };
        let mut line = self
            .random
            .pick(&["B\t13", "T", "M\t1\t1", "F\t"])
            .as_bytes()
            .to_vec();
        line.resize(length, self.random.pick(b" 0\t"));
        self.raw_line(&line);
    }

    /// A good line with one byte changed, added or removed: mostly bad.
    fn spoiled_line(&mut self) {
        const GOOD: &[&str] = &[
            "B\t13",
            "B\t1C",
            "K\t1E\t1",
            "K\t72\t0",
            "L\t1",
            "R\t0",
            "M\t-12\t34",
            "M\t0064\t-064",
            "S\t1\t15\t0",
            "F\t1",
            "T",
            QUEUE,
            LAMP,
        ];
        let mut line = self.random.pick(GOOD).as_bytes().to_vec();
        let place = self.random.below(line.len() as u64) as usize;
        let byte = self.random.pick(b"\t\t -+0019ABFTbf\r\0.=\xFF");
        match self.random.below(4) {
            0 => line[place] = byte,
            1 => line.insert(place, byte),
            2 => line.push(byte),
            _ => {
                line.remove(place);
            }
        }
        self.raw_line(&one_line(line));
    }

    fn bad_lines(&mut self) {
        for _ in 0..=self.random.below(5) {
            self.bad_line();
        }
    }

    fn edges(&mut self) {
        for _ in 0..=self.random.below(5) {
            self.edge();
        }
    }

    fn memory(&mut self) {
        let code = self.random.pick(&[0x20, 0x20, 0x20, 0x21, 0x22]);
        self.command(code);
        self.host(0x1C);
    }

    /// The inquiries, in order or at random.
    fn inquiries(&mut self) {
        if self.random.one_in(2) {
            self.exactly(INQUIRIES);
        } else {
            for _ in 0..4 {
                let inquiry = self.random.pick(INQUIRIES);
                self.host(inquiry);
            }
        }
    }

    /// What shows the parts of the state that no reply tells at once.
    fn observe(&mut self) {
        match self.random.below(10) {
            0 => self.motion_line(0, 0),
            1 => {
                // Held motion of any size is sent, though not by 0x11.
                self.exactly(&[0x0B, 0x01, 0x01]);
                if self.random.one_in(2) {
                    self.host(0x11);
                }
                self.motion_line(0, 0);
            }
            2 => self.host(0x0D),
            3 => self.host(0x16),
            4 => self.exactly(&[0x88, 0x94, 0x92, 0x9A]),
            5 => self.exactly(&[0x11, 0x1C]),
            6 => {
                self.motion_line(0, 0);
                self.motion_line(1, -1);
                self.host(0x0D);
            }
            7 => {
                self.exactly(&[0x0C, 0x01, 0x01]);
                self.motion_line(0, 0);
                self.host(0x0D);
            }
            8 => self.buttons(),
            _ => self.key(),
        }
    }

    /// Port 0 changes hands while motion is held and the stick is closed.
    fn roles(&mut self) {
        self.exactly(&[0x0B, 100, 100]);
        self.motion();
        for _ in 0..=self.random.below(5) {
            let code = self
                .random
                .pick(&[0x14, 0x16, 0x1A, 0x07, 0x0F, 0x10, 0x12, 0x88, 0x0D]);
            self.command(code);
            match self.random.below(3) {
                0 => self.motion(),
                1 => {
                    let position = self.position();
                    self.stick_line(0, position, 0);
                }
                _ => self.button(),
            }
        }
        self.exactly(&[0x0B, 0x01, 0x01, 0x11]);
        self.motion_line(0, 0);
    }
}

/// A number below 100 in packed BCD.
fn packed(number: u8) -> u8 {
    number / 10 * 16 + number % 10
}

/// The same bytes without line feeds, and not a session's head.
fn one_line(mut line: Vec<u8>) -> Vec<u8> {
    line.retain(|&byte| byte != b'\n');
    if line.starts_with(b"=") {
        line[0] = b'#';
    }
    line
}
