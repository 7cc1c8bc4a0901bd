//! The commands of a session, by what they are for.

use super::writer::Writer;

/// "0x87; 0x88 to 0x8A; 0x8B; 0x8C; 0x8F, 0x90; 0x92 [...]; 0x94, 0x95, 0x96
/// and, by the rule of adding 0x80, 0x99; 0x9A"
const INQUIRIES: [u8; 14] = [
    0x87, 0x88, 0x89, 0x8A, 0x8B, 0x8C, 0x8F, 0x90, 0x92, 0x94, 0x95, 0x96, 0x99, 0x9A,
];

/// Bytes that are excluded commands, or begin one, where they are no parameters.
const LOOK_ALIKES: [u8; 6] = [0x08, 0x09, 0x0A, 0x12, 0x80, 0x01];

/// Codes that do nothing, some of them next to codes that do.
const NOTHING: [u8; 9] = [0x00, 0x01, 0x06, 0x1D, 0x23, 0x8D, 0x97, 0xF8, 0xFF];

impl Writer {
    /// A threshold: mostly one that is soon reached, now and then none that is.
    fn threshold(&mut self) -> u8 {
        match self.random.below(8) {
            0 => 0,
            1..=3 => self.random.between(1, 4) as u8,
            4 => self.random.between(5, 40) as u8,
            5 => self.random.pick(&[64, 127, 128, 129, 254, 255]),
            6 => self.random.pick(&LOOK_ALIKES),
            _ => self.random.byte(),
        }
    }

    /// A setting of the mouse, which makes port 0 a mouse.
    pub fn mouse_setting(&mut self) {
        match self.random.below(8) {
            0..=2 => {
                let [x, y] = [self.threshold(), self.threshold()];
                self.command(&[0x0B, x, y]);
            }
            3 => {
                let [x, y] = [self.random.byte(), self.random.pick(&LOOK_ALIKES)];
                self.command(&[0x0C, x, y]);
            }
            4 | 5 => {
                let origin = self.random.pick(&[0x0F, 0x10]);
                self.command(&[origin]);
            }
            _ => {
                let action = self.random.pick(&[0, 1, 2, 3, 4, 4]);
                self.command(&[0x07, action]);
            }
        }
    }

    /// A command of the joysticks, which makes port 0 a joystick.
    pub fn stick_command(&mut self, codes: &[u8]) {
        let code = self.random.pick(codes);
        let count = match code {
            0x17 => 1,
            0x19 => 6,
            _ => 0,
        };
        let mut bytes = vec![code];
        bytes.extend((0..count).map(|_| self.random.pick(&[0, 1, 1, 2, 3, 0x08, 0x12])));
        self.command(&bytes);
    }

    /// Clock commands and inquiries, which change nothing of the mouse.
    pub fn question(&mut self) {
        match self.random.below(6) {
            0 => self.command(&[0x1C]),
            1 => self.command(&[0x1B, 0x80, 0x01, 0x12, 0x08, 0x09, 0x0A]),
            _ => {
                let inquiry = self.random.pick(&INQUIRIES);
                self.command(&[inquiry]);
            }
        }
    }

    /// A command that is ignored, or a code that does nothing.
    pub fn ignored(&mut self) {
        let [first, second] = [0; 2].map(|_| self.random.pick(&LOOK_ALIKES));
        match self.random.below(10) {
            0 => self.command(&[0x0D]),
            1 => self.command(&[0x0E, first, 0x80, 0x01, 0x12, second]),
            2 => {
                let action = self.random.pick(&[5, 8, 0x12, 0x80, 0xFF]);
                self.command(&[0x07, action]);
            }
            3 => self.command(&[0x20, 0, 0, 0]),
            4 => self.command(&[0x20, first, second, 5, 0x80, 0x01, first, 0x12, second]),
            5 => self.command(&[0x21, first, second]),
            6 => self.command(&[0x22, first, second]),
            7 => self.command(&[0x80, first]), // never with 01: see `host`
            _ => {
                let code = self.random.pick(&NOTHING);
                self.command(&[code]);
            }
        }
    }

    /// A command that ends a pause, of any kind.
    pub fn resume(&mut self) {
        match self.random.below(6) {
            0 | 1 => self.command(&[0x11]),
            2 => self.mouse_setting(),
            3 => self.stick_command(&[0x14, 0x15, 0x16, 0x17, 0x18, 0x19, 0x1A]),
            _ => self.question(),
        }
    }
}
