//! The lines of a session: host bytes and events. Whatever bytes are asked for,
//! no excluded command comes out.

use super::commands::Reader;
use super::lines::{Button, Input};
use crate::random::Random;

pub struct Writer {
    pub random: Random,
    pub inputs: Vec<Input>,
    reader: Reader,
}

impl Writer {
    pub fn new(seed: u64) -> Writer {
        Writer {
            random: Random::new(seed),
            inputs: Vec::new(),
            reader: Reader::default(),
        }
    }

    /// A host byte; 0x00 in place of one that makes an excluded command.
    pub fn host(&mut self, mut byte: u8) {
        if self.reader.excludes(byte) {
            byte = 0x00;
        }
        self.reader.receive(byte);
        self.inputs.push(Input::Host(byte));
    }

    /// A command, now and then with events between its bytes, and rarely with
    /// bytes lacking, so that the next command's are taken for them.
    pub fn command(&mut self, bytes: &[u8]) {
        for (place, &byte) in bytes.iter().enumerate() {
            while place > 0 && self.random.one_in(5) {
                self.event();
            }
            if place > 0 && self.random.one_in(200) {
                return;
            }
            self.host(byte);
        }
    }

    /// Ends a command that is half received.
    pub fn end_command(&mut self) {
        while self.reader.is_half_received() {
            self.host(0x00);
        }
    }

    pub fn motion_by(&mut self, dx: i32, dy: i32) {
        self.inputs.push(Input::Motion(dx, dy));
    }

    fn distance(&mut self) -> i32 {
        match self.random.below(8) {
            0 | 1 => self.random.pick(&[0, 1, -1]),
            2 | 3 => self.random.between(-5, 5),
            4 => self.random.pick(&[64, -64]),
            _ => self.random.between(-64, 64),
        }
    }

    pub fn motion(&mut self) {
        let (dx, dy) = (self.distance(), self.distance());
        self.motion_by(dx, dy);
    }

    pub fn press(&mut self, button: Button, down: bool) {
        self.inputs.push(Input::Button(button, down));
    }

    /// A level at random: about half of them are what the level was.
    pub fn button(&mut self) {
        let button = self.random.pick(&[Button::Left, Button::Right]);
        let down = self.random.one_in(2);
        self.press(button, down);
    }

    pub fn key(&mut self) {
        let code = self.random.between(1, 0x72) as u8;
        let down = self.random.one_in(2);
        self.inputs.push(Input::Key(code, down));
    }

    /// With positions that make 0xF8 in a monitoring mode.
    pub fn stick(&mut self) {
        let stick = self.random.pick(&[0, 1]);
        let position = match self.random.below(3) {
            0 => self.random.between(0, 15) as u8,
            _ => [15, self.random.between(8, 11) as u8][usize::from(stick)],
        };
        let trigger = self.random.pick(&[0, 0, 1]);
        self.inputs.push(Input::Stick(stick, position, trigger));
    }

    pub fn sample(&mut self, bit: u8) {
        self.inputs.push(Input::Sample(bit));
    }

    pub fn tick(&mut self) {
        self.inputs.push(Input::Tick);
    }

    /// An event with a number outside its range.
    fn outside(&mut self) {
        let far = self.random.pick(&[65, -65, 128, -9999, 9999]);
        let near = self.distance();
        let input = match self.random.below(8) {
            0 => Input::Key(0x73, true),
            1 => Input::Stick(0, 16, 0),
            2 => Input::Sample(2),
            3 | 4 => Input::Motion(near, far),
            _ => Input::Motion(far, near),
        };
        self.inputs.push(input);
    }

    pub fn event(&mut self) {
        match self.random.below(40) {
            0..=17 => self.motion(),
            18..=26 => self.button(),
            27..=30 => self.key(),
            31..=33 => self.stick(),
            34..=36 => self.tick(),
            37 => self.sample(1),
            38 => self.sample(0),
            _ => self.outside(),
        }
    }

    pub fn events(&mut self, most: u64) {
        for _ in 0..=self.random.below(most) {
            self.event();
        }
    }
}
