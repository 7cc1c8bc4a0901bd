//! What the ledger has to know besides motion: which commands are executed,
//! whether the output is paused, when the mouse is live, how a button or a
//! motion counts, and what an input can write. The mouse is on and in relative
//! mode throughout.

use super::lines::Input;
use super::packets::Due;

#[derive(Clone, Copy, Debug, PartialEq, Eq)]
enum Sticks {
    Event,
    Interrogation,
    Monitoring,
    FireMonitoring,
    Keycode,
}

impl Sticks {
    /// "the monitoring modes are those of 0x17 and 0x18"
    fn is_monitoring(self) -> bool {
        matches!(self, Sticks::Monitoring | Sticks::FireMonitoring)
    }
}

#[derive(Clone, Copy, Debug)]
pub struct Settings {
    pub paused: bool,
    pub action: u8,
    /// Of X and of Y, as they act.
    pub thresholds: [i32; 2],
    pub origin_bottom: bool,
    /// The levels of the left and the right button.
    pub down: [bool; 2],
    port0_is_mouse: bool,
    sticks: Sticks,
    joysticks_on: bool,
}

impl Settings {
    /// "Power-up: relative, action 0, thresholds 1, [...] origin top, mouse on,
    /// event mode, joysticks on, port 0 mouse, [...] all else zero."
    pub const POWER_UP: Settings = Settings {
        paused: false,
        action: 0,
        thresholds: [1, 1],
        origin_bottom: false,
        down: [false, false],
        port0_is_mouse: true,
        sticks: Sticks::Event,
        joysticks_on: true,
    };

    /// "Live: on, port 0 mouse, not monitoring."
    pub fn mouse_is_live(&self) -> bool {
        self.port0_is_mouse && !self.sticks.is_monitoring()
    }

    /// "Buttons with action 4 [...] are keys"; with 0 to 3 they send motion.
    pub fn buttons_are_keys(&self) -> bool {
        self.action == 4
    }

    /// What `input` can write if it is taken.
    pub fn due(&self, input: Input) -> Due {
        match (input, self.sticks) {
            (Input::Host(_), _) => Due::Packets,
            // "Paused bytes of keys, buttons and sticks go to the queue."
            // "Paused: ticks move only the clock, samples are dropped." Motion
            // is sent "Not paused".
            _ if self.paused => Due::Nothing,
            // "every rate ticks 2·trigger0 + trigger1, then 16·position0 + position1"
            (Input::Tick, Sticks::Monitoring) => Due::Report(2),
            // "eight samples a byte"
            (Input::Sample(_), Sticks::FireMonitoring) => Due::Report(1),
            // "Both monitoring modes send nothing else for events."
            (_, Sticks::Monitoring | Sticks::FireMonitoring) => Due::Nothing,
            // "samples elsewhere do nothing"
            (Input::Sample(_), _) => Due::Nothing,
            // Ticks too: they repeat keys in keycode mode.
            _ => Due::Packets,
        }
    }

    /// Whether a whole command is executed. "Ignored commands change nothing:
    /// 0x07 above 4; 0x0D and 0x0E outside absolute mode; 0x16 outside event and
    /// interrogation mode or with joysticks off; inquiries in either monitoring
    /// mode; 0x20 to 0x22." "0x80 then another byte: both ignored." "Other codes
    /// do nothing."
    pub fn executes(&self, command: &[u8]) -> bool {
        match command[0] {
            0x07 => command[1] <= 4,
            0x0B | 0x0C | 0x0F..=0x11 | 0x13..=0x15 | 0x17..=0x1C => true,
            0x16 => {
                self.joysticks_on && matches!(self.sticks, Sticks::Event | Sticks::Interrogation)
            }
            0x87..=0x8C | 0x8F | 0x90 | 0x92 | 0x94..=0x96 | 0x99 | 0x9A => {
                !self.sticks.is_monitoring()
            }
            _ => false,
        }
    }

    /// What an executed command changes. "While paused, a command that is
    /// executed, other than 0x13 and reset, first resumes".
    pub fn execute(&mut self, command: &[u8]) {
        self.paused = command[0] == 0x13;
        match command[0] {
            0x07 => self.action = command[1],
            // "A threshold [...] of 0 is kept as 0 and acts as 1."
            0x0B => self.thresholds = [command[1], command[2]].map(|byte| byte.max(1).into()),
            0x0F => self.origin_bottom = true,
            0x10 => self.origin_bottom = false,
            0x14 => self.enter(Sticks::Event),
            0x15 => self.enter(Sticks::Interrogation),
            0x17 => self.enter(Sticks::Monitoring),
            0x18 => self.enter(Sticks::FireMonitoring),
            0x19 => self.enter(Sticks::Keycode),
            0x1A => self.turn_joysticks_off(),
            _ => {}
        }
        // "Executed 0x07 to 0x10 make port 0 a mouse; executed 0x14 to 0x1A make
        // it a joystick."
        match command[0] {
            0x07..=0x10 => self.port0_is_mouse = true,
            0x14..=0x1A => self.port0_is_mouse = false,
            _ => {}
        }
    }

    /// "0x14, 0x15, 0x17, 0x18, 0x19 turn joysticks on"
    fn enter(&mut self, sticks: Sticks) {
        self.sticks = sticks;
        self.joysticks_on = true;
    }

    /// "0x1A turns joysticks off and leaves monitoring for event mode."
    fn turn_joysticks_off(&mut self) {
        self.joysticks_on = false;
        if self.sticks.is_monitoring() {
            self.sticks = Sticks::Event;
        }
    }
}

#[cfg(test)]
mod tests {
    use super::*;

    fn after(commands: &[&[u8]]) -> Settings {
        let mut settings = Settings::POWER_UP;
        for command in commands {
            if settings.executes(command) {
                settings.execute(command);
            }
        }
        settings
    }

    #[test]
    fn monitoring_is_left_by_no_mouse_command() {
        for monitoring in [&[0x17, 5][..], &[0x18]] {
            assert!(!after(&[monitoring, &[0x07, 0]]).mouse_is_live());
            assert!(!after(&[monitoring, &[0x14]]).mouse_is_live());
            for leaving in [0x14, 0x15, 0x1A] {
                assert!(after(&[monitoring, &[leaving], &[0x07, 0]]).mouse_is_live());
            }
        }
    }

    #[test]
    fn ignored_commands_do_not_resume() {
        let ignored: [&[u8]; 7] = [
            &[0x07, 5],
            &[0x0D],
            &[0x0E, 0, 0, 0, 0, 0],
            &[0x20, 0, 0, 0],
            &[0x21, 0, 0],
            &[0x80, 0x02],
            &[0x97],
        ];
        for command in ignored {
            assert!(after(&[&[0x13], command]).paused);
        }
        assert!(after(&[&[0x13], &[0x13]]).paused);
        assert!(after(&[&[0x17, 5], &[0x13], &[0x87]]).paused);
        assert!(after(&[&[0x1A], &[0x13], &[0x16]]).paused);
        assert!(!after(&[&[0x13], &[0x16]]).paused);
        assert!(!after(&[&[0x13], &[0x87]]).paused);
    }
}
