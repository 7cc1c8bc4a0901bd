//! Request A7: "Look without clearing."

use model::arbitrary;
use model::controller::{step, Answer, Input, Refusal};
use model::limits::BUFFER;
use model::look::{clear, look};
use model::mouse::{Button, KEYS, REPORT};
use model::program::{Format, Player};
use model::random::Random;
use model::rules::Rules;
use model::state::{Role, State};

/// Less than the six bytes of a report, a little more, and room for everything.
const LENT: [usize; 10] = [0, 1, 2, 3, 4, 5, 6, 7, 8, BUFFER];

/// States within document 01's ranges, also those that no input leads to, with
/// latches of any value.
fn states() -> Vec<State> {
    let mut random = Random::new(7);
    let state = |_| {
        let mut state = arbitrary::state(&mut random);
        state.mouse.latches = random.below(16) as u8;
        state
    };
    (0..20_000).map(state).collect()
}

/// The state after an input, the answer and the bytes.
fn stepped(mut state: State, input: Input, lent: usize) -> (State, Answer, Vec<u8>) {
    let mut out = Vec::new();
    let answer = step(&mut state, input, lent, &mut out);
    (state, answer, out)
}

/// The state after a question, and the output line.
fn asked(state: State, question: &str, lent: usize) -> (State, String) {
    let mut player = Player::new(Format::Vectors, Rules::DOCUMENT, lent);
    player.state = state;
    let mut out = Vec::new();
    player.play(question.as_bytes(), &mut out);
    (player.state, String::from_utf8(out).expect("text"))
}

/// "7, exactly when the panel looks outside absolute mode, tested before 4", else 4
/// exactly where fewer than six bytes are lent, else the report.
#[test]
fn a_look_changes_no_state_and_is_refused_exactly_with_7_and_4() {
    let mut met = [0; 10];
    for state in states() {
        let [x, y] = state.mouse.coordinates;
        let report = format!("F7{:02X}{x:04X}{y:04X}", state.mouse.latches);
        for lent in LENT {
            let (answer, bytes) = match (state.mouse.mode.is_absolute(), lent) {
                (false, _) => (7, "-"),
                (true, 0..=5) => (4, "-"),
                (true, _) => (0, &report[..]),
            };
            let line = format!("1\t{answer}\t{bytes}\n");
            assert_eq!(asked(state, "?\tlook", lent), (state, line));
            met[answer] += 1;
        }
    }
    assert!([0, 4, 7].iter().all(|&answer| met[answer] > 10_000));
}

/// "a clearing, which only empties the latches" works "in any mode and state,
/// refuses nothing, and changes only the latches" (reading 116).
#[test]
fn a_clearing_changes_the_latches_alone() {
    let mut met = [0; 16];
    for state in states() {
        let mut expected = state;
        expected.mouse.latches = 0;
        for lent in LENT {
            let given = asked(state, "?\tclear", lent);
            assert_eq!(given, (expected, "1\t0\t-\n".into()));
        }
        met[usize::from(state.mouse.latches)] += 1;
    }
    assert!(met.iter().all(|&count| count > 1000));
}

/// "Command 0x0D, where executed, resumes and makes port 0 a mouse as before and
/// then is one after the other". 0x11 is a resume and no more.
#[test]
fn an_interrogation_is_a_resume_a_look_and_a_clearing() {
    let (mut taken, mut refused) = ([0; 2], 0);
    for state in states() {
        if state.command.is_half_received() || !state.mouse.mode.is_absolute() {
            continue;
        }
        let (mut expected, resumed, mut bytes) = stepped(state, Input::Host(0x11), BUFFER);
        assert_eq!(resumed, Ok(()));
        expected.port0 = Role::Mouse;
        bytes.extend(look(&expected, REPORT).expect("absolute mode"));
        clear(&mut expected);
        for lent in LENT.into_iter().chain([bytes.len() - 1, bytes.len()]) {
            let given = stepped(state, Input::Host(0x0D), lent);
            if bytes.len() <= lent {
                assert_eq!(given, (expected, Ok(()), bytes.clone()));
                taken[usize::from(state.paused)] += 1;
            } else {
                assert_eq!(given, (state, Err(Refusal::NoRoom), Vec::new()));
                refused += 1;
            }
        }
    }
    assert!(taken.iter().all(|&count| count > 1000) && refused > 1000);
}

/// "0x0D there stays ignored": it resumes nothing, and role and latches stay.
#[test]
fn an_interrogation_outside_absolute_mode_is_ignored() {
    let mut met = 0;
    for state in states() {
        if state.command.is_half_received() || state.mouse.mode.is_absolute() {
            continue;
        }
        for lent in LENT {
            let given = stepped(state, Input::Host(0x0D), lent);
            assert_eq!(given, (state, Ok(()), Vec::new()));
        }
        met += u32::from(state.paused && state.port0 == Role::Joystick);
    }
    assert!(met > 500);
}

/// "a button's report, written or queued, is the look's bytes alone": the latch is
/// set before it, and nothing is cleared after it.
#[test]
fn a_buttons_report_is_the_looks_bytes() {
    let mut reports = [0; 2];
    let mut latches = 0;
    for state in states() {
        if !state.mouse.mode.is_absolute() || !state.mouse_is_live() {
            continue;
        }
        for (button, press, release) in [(Button::Left, 4, 8), (Button::Right, 1, 2)] {
            let down = !state.mouse.is_down(button);
            let (after, answer, out) = stepped(state, Input::Button { button, down }, BUFFER);
            if answer.is_err() {
                assert_eq!((after, answer), (state, Err(Refusal::QueueFull)));
                continue;
            }
            let latch = if down { press } else { release };
            assert_eq!(after.mouse.latches, state.mouse.latches | latch);
            let waited = state.queue.bytes().len();
            let queued = &after.queue.bytes()[waited..];
            let sent = if state.paused { queued } else { &out };
            let bit = if down { 1 } else { 2 };
            if state.mouse.action != KEYS && state.mouse.action & bit != 0 {
                assert_eq!(sent, look(&after, REPORT).expect("absolute mode"));
                reports[usize::from(state.paused)] += 1;
            } else {
                assert_eq!(sent.len(), usize::from(state.mouse.action == KEYS));
                latches += 1;
            }
        }
    }
    assert!(reports.iter().all(|&count| count > 200) && latches > 200);
}
