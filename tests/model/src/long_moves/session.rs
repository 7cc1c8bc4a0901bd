//! A session that plays moves, one after the other: each is sent whole, so that
//! nothing is held when the next begins. The buttons' levels go round, so that moves
//! are sent at each.

use super::moves::{totals, Way};
use crate::ledger::lines::{Button, Input};

/// Buttons that are pressed and released in turn, and the levels that packets then
/// show: 2 left, 1 right.
const BUTTONS: [(Button, bool, u8); 4] = [
    (Button::Left, true, 2),
    (Button::Right, true, 3),
    (Button::Left, false, 1),
    (Button::Right, false, 0),
];

/// A threshold that is above what is held while not paused.
const HIGHEST_THRESHOLD: i32 = 255;

/// A move, and where it is in its session.
#[derive(Clone, Copy, Debug, PartialEq, Eq)]
pub struct Move {
    pub way: Way,
    pub totals: [i32; 2],
    /// The levels of the buttons that its packets show.
    pub levels: u8,
    /// How many lines stand before its first, and before the one after its last.
    pub lines: [usize; 2],
}

/// Moves that are sent in one way.
pub struct Session {
    inputs: Vec<Input>,
    pub moves: Vec<Move>,
    levels: u8,
}

impl Session {
    pub fn new(way: Way) -> Session {
        let mut session = Session {
            inputs: Vec::new(),
            moves: Vec::new(),
            levels: 0,
        };
        if way == Way::Button {
            session.thresholds([HIGHEST_THRESHOLD; 2]);
        }
        for totals in totals(way) {
            session.play(way, totals);
        }
        session
    }

    pub fn text(&self) -> String {
        let lines = self.inputs.iter().map(|input| format!("{input}\n"));
        lines.collect()
    }

    /// Adds a move. Its last line is the one that writes its packets. Where no button
    /// sends it, its first line is a button with a packet of its own.
    fn play(&mut self, way: Way, totals: [i32; 2]) {
        let start = self.inputs.len();
        if !way.is_button() {
            self.button();
        }
        match way {
            Way::Resume => {
                self.inputs.push(Input::Host(0x13));
                self.motions(totals);
                self.inputs.push(Input::Host(0x11));
            }
            Way::PausedButton => {
                self.inputs.push(Input::Host(0x13));
                self.motions(totals);
                self.button();
                self.inputs.push(Input::Host(0x11));
            }
            Way::Button => {
                self.motions(totals);
                self.button();
            }
            Way::Motion => self.reach(totals),
        }
        self.moves.push(Move {
            way,
            totals,
            levels: self.levels,
            lines: [start, self.inputs.len()],
        });
    }

    fn thresholds(&mut self, [x, y]: [i32; 2]) {
        let bytes = [0x0B, x as u8, y as u8];
        self.inputs.extend(bytes.map(Input::Host));
    }

    /// "dx, dy each -64 to 64"
    fn motions(&mut self, [mut x, mut y]: [i32; 2]) {
        while [x, y] != [0, 0] {
            let [dx, dy] = [x, y].map(|left| left.clamp(-64, 64));
            self.inputs.push(Input::Motion(dx, dy));
            (x, y) = (x - dx, y - dy);
        }
    }

    /// Motion up to a step below the thresholds, and then over them with one more.
    fn reach(&mut self, totals: [i32; 2]) {
        let thresholds = totals.map(|total| total.abs().clamp(1, HIGHEST_THRESHOLD));
        let most = thresholds.map(|threshold| threshold - 1);
        let held = [0, 1].map(|axis| totals[axis].clamp(-most[axis], most[axis]));
        self.thresholds(thresholds);
        self.motions(held);
        let last = Input::Motion(totals[0] - held[0], totals[1] - held[1]);
        self.inputs.push(last);
    }

    /// Presses or releases the next button, once for each move.
    fn button(&mut self) {
        let (button, down, levels) = BUTTONS[self.moves.len() % BUTTONS.len()];
        self.inputs.push(Input::Button(button, down));
        self.levels = levels;
    }
}
