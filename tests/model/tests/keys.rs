//! Request A1: "Which keys are down."

use std::collections::BTreeSet;

use model::controller::Input;
use model::generator::session;
use model::keys::CODES;
use model::limits::BUFFER;
use model::program::{session_head, Format, Player};
use model::rules::Rules;
use model::state::State;
use model::text::parse;

fn power_up() -> State {
    State::power_up(Rules::DOCUMENT)
}

/// "set on a press and cleared on a release": by events that are taken and by
/// nothing else, whatever the mode, the pause, the command and the buffer.
#[test]
fn the_map_is_what_the_taken_key_events_make_it() {
    for format in [Format::Text, Format::Vectors] {
        let mut player = Player::new(format, Rules::DOCUMENT, BUFFER);
        let mut down = BTreeSet::new();
        for line in session(1, 100_000, format).split(|&byte| byte == b'\n') {
            if let (Format::Vectors, Some(lent)) = (format, session_head(line)) {
                player.restart(lent);
                down.clear();
                continue;
            }
            let answer = player.play(line, &mut Vec::new());
            match (parse(line), answer) {
                (Some(Input::Key { code, down: true }), 0) => drop(down.insert(code)),
                (Some(Input::Key { code, down: false }), 0) => drop(down.remove(&code)),
                // A load that is no bad line gives another state.
                (None, 0 | 5) if line.starts_with(b"?\tload\t") => {
                    down = player.state.keys.held().collect();
                }
                _ => {}
            }
            assert!(player.state.keys.held().eq(down.iter().copied()));
            assert_eq!(usize::from(player.state.keys.count()), down.len());
        }
    }
}

/// "Reset sends 0xF0 and then the break code of each key in the map"
#[test]
fn each_key_alone_is_named_by_its_break() {
    let mut player = Player::new(Format::Text, Rules::DOCUMENT, BUFFER);
    for code in CODES {
        player.state = power_up();
        player.state.keys.follow(code, true);
        player.play(b"B\t80", &mut Vec::new());
        let mut out = Vec::new();
        player.play(b"B\t01", &mut out);
        let line = String::from_utf8(out).unwrap();
        assert!(line.ends_with(&format!("\t0\tF0{:02X}\n", code + 0x80)));
    }
}

/// "the map outlives the reset", and with the clock is all that does.
#[test]
fn a_reset_is_a_power_up_but_for_clock_and_map() {
    for seed in 0..200 {
        let mut player = Player::new(Format::Text, Rules::DOCUMENT, BUFFER);
        for line in session(seed, 300, Format::Text).split(|&byte| byte == b'\n') {
            player.play(line, &mut Vec::new());
        }
        let expected = State {
            clock: player.state.clock,
            keys: player.state.keys,
            ..power_up()
        };
        player.state.reset();
        assert_eq!(player.state, expected);
    }
}
