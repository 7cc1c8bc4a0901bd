//! "What the status replies say can be put back."

use model::controller::{step, Input};
use model::generator::session;
use model::limits::BUFFER;
use model::mouse::Mouse;
use model::program::{Format, Player};
use model::rules::Rules;
use model::state::{JoystickMode, MouseMode, Role, State};
use model::text::parse;

/// "The eight: mouse 87 88 8B 8C 8F 92, sticks 94 9A."
const MOUSE: [u8; 6] = [0x87, 0x88, 0x8B, 0x8C, 0x8F, 0x92];
const STICKS: [u8; 2] = [0x94, 0x9A];

/// "the settings are those named with the state, each mode with its numbers"
#[derive(Debug, PartialEq)]
struct Settings {
    mouse: (MouseMode, u8, [u8; 2], [u8; 2], bool, bool),
    joysticks: (JoystickMode, bool),
    port0: Role,
}

fn settings(state: &State) -> Settings {
    let Mouse {
        mode,
        action,
        threshold,
        scale,
        origin_bottom,
        on,
        ..
    } = state.mouse;
    Settings {
        mouse: (mode, action, threshold, scale, origin_bottom, on),
        joysticks: (state.joysticks.mode, state.joysticks.on),
        port0: state.port0,
    }
}

fn host(state: &mut State, byte: u8) -> Vec<u8> {
    let mut out = Vec::new();
    assert_eq!(step(state, Input::Host(byte), BUFFER, &mut out), Ok(()));
    out
}

/// The state after a random session, with no command half received.
fn random_state(seed: u64) -> State {
    let mut player = Player::new(Format::Text, Rules::DOCUMENT, BUFFER);
    let text = session(seed, 300, Format::Text);
    for line in text.split(|&byte| byte == b'\n') {
        player.play(line, &mut Vec::new());
    }
    while player.state.command.is_half_received() {
        host(&mut player.state, 0x00);
    }
    player.state
}

/// Events, taken or refused, with any buffer.
fn events(state: &mut State, seed: u64) {
    let text = session(seed, 30, Format::Text);
    let lines = text.split(|&byte| byte == b'\n');
    let events = lines
        .filter_map(parse)
        .filter(|input| !matches!(input, Input::Host(_)));
    for (lent, event) in events.enumerate() {
        let _ = step(state, event, lent % 4, &mut Vec::new());
    }
}

/// "A reply is the last 8 bytes written by the step that takes its inquiry; the
/// seven after 0xF6 are copied and kept, zeros too."
fn ask(state: &mut State, inquiry: u8) -> Vec<u8> {
    let written = host(state, inquiry);
    let [before @ .., 0xF6, _, _, _, _, _, _, _] = &written[..] else {
        panic!("no reply to {inquiry:02X}");
    };
    written[before.len() + 1..].to_vec()
}

#[test]
fn the_settings_come_back() {
    let mut asked = 0;
    for seed in 0..800 {
        let mut state = random_state(seed);
        if state.joysticks.is_monitoring() {
            continue;
        }
        asked += 1;
        let before = settings(&state);
        // "port 0 a mouse, sticks first and then mouse; port 0 a joystick,
        // mouse first and then sticks"
        let order = match before.port0 {
            Role::Mouse => [&STICKS[..], &MOUSE[..]].concat(),
            Role::Joystick => [&MOUSE[..], &STICKS[..]].concat(),
        };
        let mut kept = Vec::new();
        for inquiry in order {
            events(&mut state, seed + u64::from(inquiry));
            kept.extend(ask(&mut state, inquiry));
        }
        let mut later = random_state(seed + 1_000_000);
        for byte in kept {
            events(&mut later, seed + u64::from(byte));
            host(&mut later, byte);
        }
        assert_eq!(settings(&later), before);
    }
    assert!(asked > 400);
}
