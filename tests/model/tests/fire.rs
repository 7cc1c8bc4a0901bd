//! Request A4: "Right button with the mouse off."

use model::arbitrary;
use model::controller::{step, Answer, Input};
use model::joysticks::TRIGGER;
use model::limits::BUFFER;
use model::mouse::Button;
use model::random::Random;
use model::state::{Role, State};

/// Room for nothing, for a key, for a packet, and for everything.
const LENT: [usize; 4] = [0, 1, 2, BUFFER];

/// States with the mouse off, also those that no input leads to.
fn states_with_the_mouse_off() -> Vec<State> {
    let mut random = Random::new(4);
    let states = (0..20_000).map(|_| arbitrary::state(&mut random));
    states.filter(|state| !state.mouse.on).collect()
}

/// The state after an input, the answer and the bytes.
fn stepped(mut state: State, input: Input, lent: usize) -> (State, Answer, Vec<u8>) {
    let mut out = Vec::new();
    let answer = step(&mut state, input, lent, &mut out);
    (state, answer, out)
}

fn changed(state: &State, button: Button) -> Input {
    let down = !state.mouse.is_down(button);
    Input::Button { button, down }
}

/// "With the mouse off, port 0 a mouse and no monitoring mode, a changed right
/// button changes its level and else is handled exactly as a stick 1 event with
/// the position held and that trigger." "Refusals: 2 and 4 as for a stick event."
#[test]
fn a_changed_right_button_is_a_stick_1_event() {
    let mut answers = [0; 5];
    let mut sent = [0; 3];
    for state in states_with_the_mouse_off() {
        if state.port0 == Role::Joystick || state.joysticks.is_monitoring() {
            continue;
        }
        let event = Input::Stick {
            stick: 1,
            position: (state.joysticks.sticks[1] % 16).into(),
            trigger: i32::from(!state.mouse.is_down(Button::Right)),
        };
        for lent in LENT {
            let (after, answer, out) = stepped(state, changed(&state, Button::Right), lent);
            let (mut expected, as_stick, bytes) = stepped(state, event, lent);
            if as_stick.is_ok() {
                expected.mouse.toggle(Button::Right);
            }
            assert_eq!((after, answer, &out), (expected, as_stick, &bytes));
            assert!(answer.is_ok() || after == state);
            answers[usize::from(model::controller::answer_number(answer))] += 1;
            sent[out.len()] += 1;
        }
    }
    let [taken, one, full, motion, short] = answers;
    assert!(taken > 1000 && full > 100 && short > 100);
    assert!(one == 0 && motion == 0 && sent.iter().all(|&count| count > 100));
}

/// "Otherwise [...] buttons only change their level": the left one, and the right
/// one with port 0 a joystick or in a monitoring mode.
#[test]
fn the_level_alone_changes_elsewhere() {
    let mut met = [0; 3];
    for state in states_with_the_mouse_off() {
        for button in [Button::Left, Button::Right] {
            let joystick = state.port0 == Role::Joystick;
            let monitoring = state.joysticks.is_monitoring();
            let why = [button == Button::Left, joystick, monitoring];
            if !why.contains(&true) {
                continue;
            }
            let mut expected = state;
            expected.mouse.toggle(button);
            for lent in LENT {
                let given = stepped(state, changed(&state, button), lent);
                assert_eq!(given, (expected, Ok(()), Vec::new()));
            }
            for (count, met) in met.iter_mut().zip(why) {
                *count += u32::from(met);
            }
        }
    }
    assert!(met.iter().all(|&count| count > 1000));
}

/// "An unchanged level does nothing."
#[test]
fn an_unchanged_button_does_nothing() {
    let states = states_with_the_mouse_off();
    assert!(states.len() > 5000);
    for state in states {
        for button in [Button::Left, Button::Right] {
            let down = state.mouse.is_down(button);
            let given = stepped(state, Input::Button { button, down }, 0);
            assert_eq!(given, (state, Ok(()), Vec::new()));
        }
    }
}

/// "Switching the mouse off sends nothing", and neither that nor switching it on
/// touches a level or a stick (reading 114).
#[test]
fn switching_the_mouse_leaves_levels_and_sticks() {
    let switches: [&[u8]; 4] = [&[0x12], &[0x08], &[0x09, 0, 9, 0, 9], &[0x0A, 1, 1]];
    let mut random = Random::new(4);
    let mut held = 0;
    for _ in 0..20_000 {
        let state = arbitrary::state(&mut random);
        if state.paused || state.command.is_half_received() {
            continue;
        }
        for bytes in switches {
            let mut after = state;
            for &byte in bytes {
                let mut out = Vec::new();
                assert_eq!(step(&mut after, Input::Host(byte), 0, &mut out), Ok(()));
            }
            assert_eq!(after.mouse.on, bytes[0] != 0x12);
            assert_eq!(after.mouse.levels, state.mouse.levels);
            assert_eq!(after.joysticks.sticks, state.joysticks.sticks);
            let switches = state.mouse.on == (bytes[0] == 0x12);
            let trigger = state.joysticks.sticks[1] & TRIGGER != 0;
            held += u32::from(switches && trigger && state.mouse.is_down(Button::Right));
        }
    }
    assert!(held > 1000, "{held}");
}
