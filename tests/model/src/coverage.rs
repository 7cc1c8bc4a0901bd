//! What a session visits, counted with the model.

use std::collections::BTreeMap;
use std::fmt;

use crate::controller::Input;
use crate::coverage::fire::FireCoverage;
use crate::coverage::keys::KeyCoverage;
use crate::coverage::look::LookCoverage;
use crate::coverage::saved::SavedCoverage;
use crate::limits::BUFFER;
use crate::program::{session_head, Format, Player};
use crate::rules::Rules;
use crate::state::{JoystickMode, MouseMode, Role, State};
use crate::text::{parse, BAD_LINE};

pub mod fire;
pub mod keys;
pub mod look;
mod look_history;
pub mod saved;

const MOUSE_MODES: [&str; 3] = ["relative", "absolute", "keycode"];
const JOYSTICK_MODES: [&str; 5] = ["event", "interrogation", "monitoring", "fire", "keycode"];
const KINDS: [&str; 9] = [
    "host byte",
    "key",
    "button",
    "motion",
    "stick",
    "sample",
    "tick",
    "bad line",
    "question",
];

/// One line, and what it met.
pub struct Line<'a> {
    pub text: &'a [u8],
    pub input: Option<Input>,
    pub before: &'a State,
    pub after: &'a State,
    pub lent: usize,
    pub answer: usize,
    /// How many bytes it wrote, or told.
    pub written: usize,
}

impl Line<'_> {
    pub fn taken(&self) -> bool {
        self.answer == 0
    }
}

/// How often each thing was met, by what it is in plain words.
pub type Counts = BTreeMap<&'static str, u64>;

fn add(counts: &mut Counts, met: &[(&'static str, bool)]) {
    for &(what, met) in met {
        *counts.entry(what).or_default() += u64::from(met);
    }
}

pub struct Coverage {
    /// By answer number.
    pub answers: [u64; 10],
    /// By mouse mode, joystick mode, and not paused or paused.
    pub pairs: [[[u64; 2]; 5]; 3],
    /// By port 0's role, the mouse off or on, and joysticks off or on.
    pub roles: [[[u64; 2]; 2]; 2],
    /// By kind of line and answer number.
    pub kinds: [[u64; 10]; 9],
    /// By code: taken last bytes of commands, not paused, and paused.
    pub commands: [[u64; 2]; 256],
    /// By code: how many of the paused ones ended the pause.
    pub resumes: [u64; 256],
    /// The most bytes that a line wrote.
    pub longest: usize,
    pub keys: KeyCoverage,
    pub saved: SavedCoverage,
    pub fire: FireCoverage,
    pub look: LookCoverage,
}

impl Coverage {
    fn none() -> Coverage {
        Coverage {
            answers: [0; 10],
            pairs: [[[0; 2]; 5]; 3],
            roles: [[[0; 2]; 2]; 2],
            kinds: [[0; 10]; 9],
            commands: [[0; 2]; 256],
            resumes: [0; 256],
            longest: 0,
            keys: KeyCoverage::default(),
            saved: SavedCoverage::default(),
            fire: FireCoverage::default(),
            look: LookCoverage::default(),
        }
    }

    pub fn of(session: &[u8], format: Format) -> Coverage {
        let mut coverage = Coverage::none();
        coverage.add(session, format);
        coverage
    }

    /// What sessions visit together, one after the other and each from power-up.
    pub fn of_all(sessions: impl Iterator<Item = Vec<u8>>, format: Format) -> Coverage {
        let mut coverage = Coverage::none();
        sessions.for_each(|session| coverage.add(&session, format));
        coverage
    }

    fn add(&mut self, session: &[u8], format: Format) {
        let mut player = Player::new(format, Rules::DOCUMENT, BUFFER);
        self.start_session();
        for line in session.split_inclusive(|&byte| byte == b'\n') {
            let line = line.strip_suffix(b"\n").unwrap_or(line);
            match session_head(line) {
                Some(lent) if format == Format::Vectors => {
                    player.restart(lent);
                    self.start_session();
                }
                _ => self.count(&mut player, line),
            }
        }
    }

    fn start_session(&mut self) {
        self.fire.start_session();
        self.look.start_session();
    }

    fn count(&mut self, player: &mut Player, line: &[u8]) {
        let before = player.state;
        let mut out = Vec::new();
        let answer = usize::from(player.play(line, &mut out));
        let (mouse, sticks) = mode_numbers(&before);
        let role = usize::from(before.port0 == Role::Joystick);
        let input = parse(line);
        self.answers[answer] += 1;
        self.pairs[mouse][sticks][usize::from(before.paused)] += 1;
        self.roles[role][usize::from(before.mouse.on)][usize::from(before.joysticks.on)] += 1;
        self.kinds[kind_number(input, answer)][answer] += 1;
        self.longest = self.longest.max(player.written());
        if let (Some(Input::Host(byte)), 0) = (input, answer) {
            self.count_command(&before, &player.state, byte);
        }
        let line = Line {
            text: line,
            input,
            before: &before,
            after: &player.state,
            lent: player.lent,
            answer,
            written: player.written(),
        };
        self.keys.count(&line);
        self.saved.count(&line);
        self.fire.count(&line);
        self.look.count(&line);
    }

    fn count_command(&mut self, before: &State, after: &State, byte: u8) {
        if after.command.is_half_received() {
            return;
        }
        let code = match before.command.is_half_received() {
            true => before.command.code(),
            false => byte,
        };
        self.commands[usize::from(code)][usize::from(before.paused)] += 1;
        self.resumes[usize::from(code)] += u64::from(before.paused && !after.paused);
    }
}

/// The places of both modes in document 01's list.
fn mode_numbers(state: &State) -> (usize, usize) {
    let mouse = match state.mouse.mode {
        MouseMode::Relative => 0,
        MouseMode::Absolute { .. } => 1,
        MouseMode::Keycode { .. } => 2,
    };
    let sticks = match state.joysticks.mode {
        JoystickMode::Event => 0,
        JoystickMode::Interrogation => 1,
        JoystickMode::Monitoring { .. } => 2,
        JoystickMode::FireMonitoring => 3,
        JoystickMode::Keycode(_) => 4,
    };
    (mouse, sticks)
}

fn kind_number(input: Option<Input>, answer: usize) -> usize {
    match input {
        Some(Input::Host(_)) => 0,
        Some(Input::Key { .. }) => 1,
        Some(Input::Button { .. }) => 2,
        Some(Input::Motion { .. }) => 3,
        Some(Input::Stick { .. }) => 4,
        Some(Input::Sample(_)) => 5,
        Some(Input::Tick) => 6,
        None if answer == usize::from(BAD_LINE) => 7,
        None => 8,
    }
}

impl fmt::Display for Coverage {
    fn fmt(&self, f: &mut fmt::Formatter<'_>) -> fmt::Result {
        writeln!(f, "answers: {}", answer_counts(&self.answers))?;
        writeln!(f, "most bytes at once: {}", self.longest)?;
        for (kind, answers) in KINDS.iter().zip(&self.kinds) {
            writeln!(f, "{kind}: {}", answer_counts(answers))?;
        }
        writeln!(f, "mouse mode, joystick mode: lines not paused, paused")?;
        for (mouse, row) in MOUSE_MODES.iter().zip(&self.pairs) {
            for (sticks, [running, paused]) in JOYSTICK_MODES.iter().zip(row) {
                writeln!(f, "  {mouse}, {sticks}: {running}, {paused}")?;
            }
        }
        writeln!(f, "port 0 and what is off: lines")?;
        for (role, row) in ["mouse", "joystick"].iter().zip(&self.roles) {
            for (mouse, row) in ["mouse off", "mouse on"].iter().zip(row) {
                for (sticks, count) in ["joysticks off", "joysticks on"].iter().zip(row) {
                    writeln!(f, "  {role}, {mouse}, {sticks}: {count}")?;
                }
            }
        }
        writeln!(f, "code: ended not paused, ended paused, resumes")?;
        for (code, [running, paused]) in self.commands.iter().enumerate() {
            if running + paused > 0 {
                writeln!(
                    f,
                    "  {code:02X}: {running}, {paused}, {}",
                    self.resumes[code]
                )?;
            }
        }
        write!(f, "{}{}", self.keys, self.saved)?;
        write!(f, "{}{}", self.fire, self.look)
    }
}

/// The counts of the answers that there are: 0 to 5, 7 and 9.
pub fn answer_counts(answers: &[u64; 10]) -> String {
    [0, 1, 2, 3, 4, 5, 7, 9]
        .map(|number| format!("{number}: {}", answers[number]))
        .join(", ")
}
