//! The panel's looks and clearings, in every state of the mouse, with buffers of
//! about a report's length and others; and what shows the effect of each.

use super::{Generator, QUEUE};
use crate::arbitrary;
use crate::limits::BUFFER;
use crate::mouse::REPORT;
use crate::program::Format;
use crate::spoil::line_of;

pub(super) const LOOK: &str = "?\tlook";
const CLEAR: &str = "?\tclear";

/// Lines that are nearly `look` or `clear`.
const BAD_LOOKS: &[&str] = &[
    "?\tlook\t",
    "?\tlook ",
    "?\tlook\r",
    "?\tlook\0",
    "?\tlook\t6",
    "?\tlook\tlook",
    "?\tlook\tclear",
    "?\tlooks",
    "?\tloo",
    "?\tlo",
    "?\took",
    "?\tLook",
    "?\tLOOK",
    "?\t look",
    "?\t\tlook",
    "?look",
    "? look",
    "??\tlook",
    "?\tclear\t",
    "?\tclear ",
    "?\tclear\r",
    "?\tclear\0",
    "?\tclear\t0",
    "?\tclear\tclear",
    "?\tclears",
    "?\tclea",
    "?\tlear",
    "?\tClear",
    "?\tCLEAR",
    "?\t clear",
    "?\t\tclear",
    "?clear",
    "? clear",
    "??\tclear",
];

impl Generator {
    /// A look, or now and then a clearing or neither, once in `count` times. The
    /// text program has none.
    pub(super) fn glance(&mut self, count: u64) {
        if self.format == Format::Vectors && self.random.one_in(count) {
            let line = match self.random.below(12) {
                0 => self.random.pick(BAD_LOOKS),
                1..=3 => CLEAR,
                _ => LOOK,
            };
            self.line(line);
        }
    }

    /// A session in which the panel looks, mostly in absolute mode.
    pub(super) fn looking_session(&mut self) {
        let lent = match self.random.below(8) {
            0..=2 => REPORT,
            3 | 4 => self.random.below(REPORT as u64 + 2) as usize,
            5 => self.random.between(8, 40) as usize,
            _ => BUFFER,
        };
        self.line(&format!("=\t{lent}"));
        let length = 8 + self.random.below(90) as usize;
        let rest = self.left.saturating_sub(length);
        self.left -= rest;
        self.absolute_mode();
        if lent < REPORT && self.random.one_in(2) {
            self.looks_before_a_queued_report();
        }
        while self.left > 0 {
            self.panel_scene();
            self.glance(3);
        }
        self.left = rest;
    }

    /// Absolute mode, now and then with a scale, a button action and a position.
    fn absolute_mode(&mut self) {
        self.command(0x09);
        for code in [0x0C, 0x07, 0x0E] {
            if self.random.one_in(3) {
                self.command(code);
            }
        }
    }

    fn panel_scene(&mut self) {
        match self.random.below(32) {
            0..=4 => self.button(),
            5..=7 => self.motion(),
            8 => self.command(0x0E),
            9 => self.command(0x0C),
            10 => self.absolute_mode(),
            11..=13 => self.look_and_interrogate(),
            14..=16 => self.looks_while_paused(),
            17 | 18 => self.looks_within_a_command(),
            19 | 20 => self.looks_outside_absolute_mode(),
            21 | 22 => self.looks_with_port_0_a_joystick(),
            23 | 24 => self.looks_and_reports(),
            25 => self.host(0x12),
            26 => self.event(),
            27..=29 => self.looks_at_a_loaded_state(),
            30 => self.looks_before_a_queued_report(),
            _ => self.looks_at_a_full_queue(),
        }
    }

    /// 0x0D, with looks and a clearing about it.
    fn look_and_interrogate(&mut self) {
        for _ in 0..=self.random.below(4) {
            self.host(0x0D);
            self.glance(2);
            if self.random.one_in(3) {
                self.button();
            }
            self.glance(3);
        }
    }

    /// A button that is a report, a latch alone or a key, and mostly a look after
    /// it.
    fn looks_and_reports(&mut self) {
        self.command(0x07);
        if self.random.one_in(3) {
            self.host(0x13);
        }
        for _ in 0..=self.random.below(3) {
            self.press_and_release(1);
        }
    }

    /// The pause may outlast the scene.
    fn looks_while_paused(&mut self) {
        self.host(0x13);
        for _ in 0..=self.random.below(6) {
            match self.random.below(6) {
                0 => self.key(),
                1 => self.motion(),
                2 => self.host(0x0D),
                _ => self.button(),
            }
            self.glance(2);
            self.question(QUEUE, 3);
        }
        if !self.random.one_in(5) {
            let code = self.random.pick(&[0x0D, 0x11, 0x11]);
            self.host(code);
        }
    }

    /// Of a memory load, which may have 255 bytes of data, only the first come here:
    /// the lines after the scene are within it then.
    fn looks_within_a_command(&mut self) {
        let code = self.random.pick(&arbitrary::codes_with_parameters());
        let parameters = self.parameters(code);
        self.host(code);
        for &parameter in parameters.iter().take(8) {
            self.glance(2);
            self.host(parameter);
        }
    }

    /// Latches outlive the mode; a later look tells whether they were emptied.
    fn looks_outside_absolute_mode(&mut self) {
        let mode = self.random.pick(&[0x08, 0x0A]);
        self.command(mode);
        for _ in 0..=self.random.below(3) {
            self.glance(1);
            match self.random.below(6) {
                0 => self.host(0x0D),
                1 => self.motion(),
                2 => self.button(),
                3 => self.looks_while_paused(),
                _ => {}
            }
        }
        if !self.random.one_in(4) {
            self.absolute_mode();
            self.line(LOOK);
        }
    }

    /// Motion and stick 0 show whose port 0 is.
    fn looks_with_port_0_a_joystick(&mut self) {
        let sticks = self
            .random
            .pick(&[0x14, 0x15, 0x16, 0x17, 0x18, 0x19, 0x1A]);
        self.command(sticks);
        for _ in 0..=self.random.below(3) {
            self.glance(1);
            match self.random.below(6) {
                0 | 1 => self.motion(),
                2 => self.stick(),
                3 => self.button(),
                4 => self.tick(),
                _ => self.sample(),
            }
        }
        match self.random.below(4) {
            0 => self.host(0x0D),
            1 => self.command(0x07),
            2 => self.command(0x09),
            _ => {}
        }
    }

    /// An arbitrary state, with latches of any value.
    fn looks_at_a_loaded_state(&mut self) {
        let mut state = arbitrary::state(&mut self.random);
        state.mouse.latches = self.random.below(16) as u8;
        self.load(&line_of(&state));
        if self.random.one_in(3) {
            self.line(CLEAR);
        }
        for _ in 0..=self.random.below(3) {
            self.glance(1);
            match self.random.below(5) {
                0 => self.motion_line(1, -1),
                1 => self.host(0x0D),
                2 | 3 => self.button(),
                _ => {}
            }
        }
    }
}
