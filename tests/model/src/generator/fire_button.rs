//! The right button while the mouse is off: a game's fire button.

use super::{Generator, QUEUE, ROOM};

impl Generator {
    /// The mouse is switched off, its buttons and stick 1 come, and now and then
    /// it is switched on again.
    pub(super) fn fire_button(&mut self) {
        self.mouse_off();
        self.stick_mode();
        for _ in 0..=self.random.below(12) {
            self.shot();
        }
        if self.random.one_in(3) {
            self.mouse_on();
        }
    }

    /// The same while paused, with room in the queue for a packet, for a key, or
    /// for nothing; and again after the resume, when nothing stands in the way.
    pub(super) fn fire_at_a_full_queue(&mut self) {
        self.mouse_off();
        let sticks = self.random.pick(&[0x14, 0x14, 0x15, 0x19, 0x19]);
        self.command(sticks);
        if self.random.one_in(5) {
            self.host(0x1A);
        }
        self.mouse_port();
        self.right_button();
        self.stick_1();
        self.host(0x13);
        for _ in 0..self.random.between(ROOM - 2, ROOM) {
            self.key();
        }
        self.both_ways();
        for _ in 0..self.random.between(2, 6) {
            match self.random.below(5) {
                0 => self.key(),
                1 => self.button(),
                2 => self.stick_1(),
                _ => self.right_button(),
            }
            self.question(QUEUE, 6);
        }
        self.host(0x11);
        self.both_ways();
        self.mouse_on();
    }

    /// A mouse mode, and the mouse off: with the right button down or up.
    fn mouse_off(&mut self) {
        let mouse = self.random.pick(&[0x08, 0x09, 0x0A]);
        self.command(mouse);
        if self.random.one_in(3) {
            self.right_button();
        }
        self.host(0x12);
    }

    /// A joystick mode, joysticks off or on, and port 0 a mouse in the end.
    fn stick_mode(&mut self) {
        let sticks = self
            .random
            .pick(&[0x14, 0x14, 0x14, 0x15, 0x15, 0x17, 0x17, 0x18, 0x19, 0x19]);
        self.command(sticks);
        if self.random.one_in(4) {
            self.host(0x1A);
        }
        self.mouse_port();
    }

    /// Port 0 becomes a mouse, by a button action; the mouse stays off or on.
    fn mouse_port(&mut self) {
        let action = self.random.between(0, 4) as u8;
        self.exactly(&[0x07, action]);
    }

    /// The right button goes down or up.
    pub(super) fn right_button(&mut self) {
        let down = self.random.one_in(2);
        self.button_line('R', down);
    }

    /// A press and a release: one of them is a change, whatever the level was.
    fn both_ways(&mut self) {
        let first = self.random.one_in(2);
        self.button_line('R', first);
        self.button_line('R', !first);
    }

    fn stick_1(&mut self) {
        let (position, trigger) = (self.position(), i32::from(self.random.one_in(3)));
        self.stick_line(1, position, trigger);
    }

    /// A line or a few while the mouse is off.
    fn shot(&mut self) {
        match self.random.below(20) {
            0..=4 => self.right_button(),
            5..=8 => self.both_ways(),
            9 | 10 => {
                let down = self.random.one_in(2);
                self.button_line('L', down);
            }
            11 | 12 => self.stick_1(),
            13 => self.stick_mode(),
            14 => {
                // What is stored is told, and port 0 is a joystick for a while.
                self.host(0x16);
                self.right_button();
                self.mouse_port();
            }
            15 => {
                self.host(0x0B);
                self.right_button();
                self.exactly(&[0x01, 0x01]);
            }
            16 => self.paused_shots(),
            17 => {
                self.mouse_on();
                self.host(0x12);
                self.mouse_port();
            }
            _ => self.event(),
        }
    }

    fn paused_shots(&mut self) {
        self.host(0x13);
        for _ in 0..=self.random.below(5) {
            match self.random.below(4) {
                0 => self.key(),
                1 => self.stick_1(),
                _ => self.right_button(),
            }
        }
        self.question(QUEUE, 2);
        self.host(0x11);
    }

    /// The mouse is on again; its level shows, and then what is stored.
    fn mouse_on(&mut self) {
        let mouse = self.random.pick(&[0x08, 0x08, 0x09, 0x0A]);
        self.command(mouse);
        self.motion();
        self.right_button();
        if self.random.one_in(2) {
            self.host(0x16);
        }
    }
}
