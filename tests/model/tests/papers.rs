//! What the papers state, and what follows from it.

use model::clock::Clock;
use model::controller::{answer_number, step, Input};
use model::joysticks::Joysticks;
use model::limits::BUFFER;
use model::papers::{
    fire, keys, lines, looks, months, moves, papers, questions, saved, sentences, Paper,
};
use model::program::{run, Format, Player};
use model::rules::Rules;
use model::state::{JoystickMode, Role, State, Velocity};
use model::text::{parse, HEADER};
use model::vectors::{bad_input, groups, played, BAD_EVENTS};

fn text_program(input: &str, format: Format) -> String {
    let mut output = Vec::new();
    run(&mut input.as_bytes(), &mut output, format).expect("a write to memory");
    String::from_utf8(output).expect("text")
}

/// Every session of the tables gives its stated output, line by line.
#[test]
fn every_session_gives_its_stated_output() {
    let (papers, sentences, questions) = (papers(), sentences(), questions());
    let (keys, saved, months) = (keys(), saved(), months());
    let (fire, moves, looks) = (fire(), moves(), looks());
    assert_eq!(papers.len(), 17 + 78 + 7);
    assert_eq!(sentences.len(), 20);
    assert_eq!(questions.len(), 12);
    assert_eq!(keys.len(), 4 + 28);
    assert_eq!(saved.len(), 9 + 52);
    assert_eq!(months.len(), 2);
    assert_eq!(fire.len(), 4 + 29);
    assert_eq!(moves.len(), 1 + 28);
    assert_eq!(looks.len(), 5 + 60);
    let requests = [keys, saved, months, fire, moves, looks].concat();
    let stated = [papers, sentences, questions, requests].concat();
    for Paper { title, .. } in stated.iter().filter(|paper| !holds(paper)) {
        eprintln!("not as stated: {title}");
    }
    assert!(stated.iter().all(holds));
}

fn holds(paper: &Paper) -> bool {
    played(paper.lent, &paper.lines) == paper.output_text()
}

#[test]
fn twelve_sessions_and_four_runs_are_there() {
    let titles: Vec<String> = papers().into_iter().map(|paper| paper.title).collect();
    for number in 1..=12 {
        assert!(titles.contains(&format!("Document 01, session {number}")));
    }
    let runs = titles
        .iter()
        .filter(|title| title.starts_with("Document 01, run"));
    assert_eq!(runs.count(), 4);
}

#[test]
fn the_example_byte_for_byte() {
    let input = "K\t1E\t1\nM\t3\t-2\nB\t13\nK\t1E\t0\nB\t11\n";
    let output = "line\tanswer\tbytes\n1\t0\t1E\n2\t0\tF803FE\n3\t0\t-\n4\t0\t-\n5\t0\t9E\n";
    assert_eq!(text_program(input, Format::Text), output);
    // "the last may lack it"
    assert_eq!(text_program(input.trim_end(), Format::Text), output);
}

#[test]
fn the_ends_of_the_input() {
    let header = std::str::from_utf8(HEADER).unwrap();
    assert_eq!(text_program("", Format::Text), header);
    assert_eq!(
        text_program("\n", Format::Text),
        format!("{header}1\t9\t-\n")
    );
    assert_eq!(text_program("", Format::Vectors), "");
}

#[test]
fn long_lines_are_bad_and_are_one_line() {
    for length in [20, 31, 32, 33, 1000, 262_143, 262_144, 262_145, 600_000] {
        let input = format!("T\n{}\nK\t1E\t1", "T".repeat(length));
        let output = text_program(&input, Format::Vectors);
        assert_eq!(output, "1\t0\t-\n2\t9\t-\n3\t0\t1E\n");
    }
}

#[test]
fn a_head_starts_a_session_with_its_buffer() {
    let input = "B\t13\n=\t0\nK\t1E\t1\n=\t1\nK\t1E\t1\n=\t00001\n=\t-1\n=\t100000\n";
    let output = "1\t0\t-\n=\t0\n1\t4\t-\n=\t1\n1\t0\t1E\n=\t00001\n1\t9\t-\n2\t9\t-\n";
    assert_eq!(text_program(input, Format::Vectors), output);
}

/// The text program has no questions, and bad lines are no questions.
#[test]
fn questions_are_for_vectors_alone() {
    let input = "B\t13\nK\t1E\t1\n?\tqueue\n?\tlamp\n?\tqueues\n?\tlook\n?\tclear\n?\tqueue";
    let told = "1\t0\t-\n2\t0\t-\n3\t0\t1E\n4\t0\t01\n5\t9\t-\n6\t7\t-\n7\t0\t-\n8\t0\t1E\n";
    assert_eq!(text_program(input, Format::Vectors), told);
    let header = std::str::from_utf8(HEADER).unwrap();
    let bad = "1\t0\t-\n2\t0\t-\n3\t9\t-\n4\t9\t-\n5\t9\t-\n6\t9\t-\n7\t9\t-\n8\t9\t-\n";
    assert_eq!(text_program(input, Format::Text), format!("{header}{bad}"));
}

/// A refusal changes nothing: shown for every refused line of the vectors.
#[test]
fn refusals_leave_the_state() {
    let mut refused = [0; 10];
    for session in groups().iter().flat_map(|group| &group.sessions) {
        let mut player = Player::new(Format::Vectors, Rules::DOCUMENT, session.lent);
        for line in &session.lines {
            let before = player.state;
            let answer = player.play(line.as_bytes(), &mut Vec::new());
            if matches!(answer, 1..=4 | 7) {
                assert_eq!(player.state, before);
                assert_eq!(player.written(), 0);
                refused[usize::from(answer)] += 1;
            }
        }
    }
    assert!([1, 2, 3, 4, 7].iter().all(|&answer| refused[answer] > 0));
}

/// The other lines of a session give the same without its bad events.
#[test]
fn bad_events_give_1_and_change_nothing() {
    let bad: Vec<String> = BAD_EVENTS.iter().flat_map(|event| lines(event)).collect();
    let sessions = bad_input();
    assert_eq!(sessions.len(), 30);
    for session in &sessions {
        let given: Vec<&str> = session.output.lines().map(after_number).collect();
        let (bad_lines, good_lines): (Vec<_>, Vec<_>) = session
            .lines
            .iter()
            .zip(given)
            .partition(|(line, _)| bad.contains(line));
        assert_eq!(bad_lines.len(), BAD_EVENTS.len());
        assert!(bad_lines.iter().all(|(_, given)| *given == "1\t-"));
        let lines: Vec<String> = good_lines.iter().map(|(line, _)| (*line).clone()).collect();
        let alone = played(session.lent, &lines);
        let alone: Vec<&str> = alone.lines().map(after_number).collect();
        assert!(good_lines.iter().map(|(_, given)| *given).eq(alone));
    }
}

fn after_number(line: &str) -> &str {
    line.split_once('\t').expect("a numbered line").1
}

/// The state after a session.
fn after(session: &str) -> State {
    let mut player = Player::new(Format::Vectors, Rules::DOCUMENT, BUFFER);
    for line in lines(session) {
        player.play(line.as_bytes(), &mut Vec::new());
    }
    player.state
}

/// "Ignored commands change nothing": 0x0D and 0x0E outside absolute mode, and
/// inquiries in either monitoring mode.
#[test]
fn ignored_commands_change_nothing() {
    let inquiries = "87 88 89 8A 8B 8C 8F 90 92 94 95 96 99 9A";
    let outside = ["0D", "0E 13 80 01 88 1C"];
    let cases = [
        ("0B 0A 0A; M 5 -3; K 1E 1", &outside[..]),
        ("0A 04 04; M 3 -3; K 1E 1", &outside),
        ("17 05; S 1 9 1; T *3", &[inquiries]),
        ("18; S 1 9 1; F 1 *3", &[inquiries]),
    ];
    for (before, ignored) in cases {
        for port0 in ["07 00", "16"] {
            for pause in ["11", "13; M 30 40; K 1E 0; S 1 2 0"] {
                let before = format!("{before}; {port0}; {pause}");
                for command in ignored {
                    assert_eq!(after(&format!("{before}; {command}")), after(&before));
                }
            }
        }
    }
}

/// "0x08, 0x09, 0x0A turn the mouse on, clear held motion, zero the coordinates"
#[test]
fn mouse_modes_zero_the_coordinates() {
    let moved = "09 00 64 00 64; M 5 7";
    assert_eq!(after(moved).mouse.coordinates, [5, 7]);
    for command in ["08", "09 00 64 00 64", "0A 01 01"] {
        let state = after(&format!("{moved}; {command}"));
        assert_eq!(state.mouse.coordinates, [0, 0]);
    }
}

/// "0x12 turns the mouse off and clears held motion."
#[test]
fn mouse_off_clears_held_motion() {
    for mode in ["08", "09 00 64 00 64", "0A 0A 0A"] {
        let held = format!("{mode}; 0B 0A 0A; 0C 0A 0A; M 5 -5");
        assert_eq!(after(&held).mouse.held, [5, -5]);
        assert_eq!(after(&format!("{held}; 12")).mouse.held, [0, 0]);
    }
}

/// Whether repeat counts, monitoring ticks and samples are 0.
fn is_clear(joysticks: Joysticks) -> bool {
    let Joysticks {
        mode, on, sticks, ..
    } = joysticks;
    let clear = Joysticks {
        mode,
        on,
        sticks,
        ..Joysticks::POWER_UP
    };
    joysticks == clear
}

/// "0x14, 0x15, 0x17, 0x18, 0x19 turn joysticks on and clear repeat counts,
/// monitoring ticks and samples"
#[test]
fn joystick_modes_clear_counts_ticks_and_samples() {
    let keycode = "19 01 01 01 01 01 01";
    let counting = format!("{keycode}; S 0 9 0; T *3");
    for counted in [&counting, "17 05; T *3", "18; F 1 *3"] {
        assert!(!is_clear(after(counted).joysticks));
        for command in ["14", "15", "17 05", "18", keycode] {
            let state = after(&format!("{counted}; {command}"));
            assert!(is_clear(state.joysticks));
        }
    }
}

/// "leaving a monitoring mode by another command clears the last two"
#[test]
fn leaving_a_monitoring_mode_clears_ticks_and_samples() {
    for counted in ["17 05; T *3", "18; F 1 *3"] {
        for command in ["08", "09 00 64 00 64", "0A 01 01", "1A"] {
            let state = after(&format!("{counted}; {command}"));
            assert!(is_clear(state.joysticks));
        }
    }
}

/// Reading 22: "A refused tick does not move the clock"
#[test]
fn reading_22() {
    let mut player = Player::new(Format::Vectors, Rules::DOCUMENT, 1);
    for line in lines("17 01; T *3") {
        player.play(line.as_bytes(), &mut Vec::new());
    }
    assert_eq!(player.state.clock, Clock::POWER_UP);
}

fn keycode_state() -> State {
    let mut state = State::power_up(Rules::DOCUMENT);
    state.joysticks.mode = JoystickMode::Keycode(Velocity {
        breakpoint: [0, 0],
        before: [0, 0],
        after: [1, 0],
    });
    state.port0 = Role::Joystick;
    state
}

/// Reading 64: "An axis without direction is left alone by ticks"
#[test]
fn reading_64() {
    let mut state = keycode_state();
    state.joysticks.wait[0] = 10;
    let answer = step(&mut state, Input::Tick, BUFFER, &mut Vec::new());
    assert_eq!((answer_number(answer), state.joysticks.wait[0]), (0, 10));
}

/// Reading 65: "neither ticks nor direction changes touch age and wait"
#[test]
fn reading_65() {
    let state = after("19 00 00 00 00 01 01; S 0 8 0; T *5; 1A; S 0 4 0; T *10");
    assert_eq!(state.joysticks.age[0], 5);
    assert_eq!(state.joysticks.wait[0], 5);
}

/// Reading 67: a monitoring mode with joysticks off monitors.
#[test]
fn reading_67() {
    let mut state = State::power_up(Rules::DOCUMENT);
    state.joysticks.mode = JoystickMode::Monitoring { rate: 0 };
    state.joysticks.on = false;
    let mut out = Vec::new();
    assert_eq!(step(&mut state, Input::Tick, BUFFER, &mut out), Ok(()));
    assert_eq!(out, [0, 0]);
}

/// Age and wait "stop at 2,551".
#[test]
fn counts_stop() {
    let mut state = keycode_state();
    state.joysticks.sticks[0] = 2;
    for _ in 0..3000 {
        assert_eq!(
            step(&mut state, Input::Tick, BUFFER, &mut Vec::new()),
            Ok(())
        );
    }
    assert_eq!(state.joysticks.age, [0, 2551]);
    assert_eq!(state.joysticks.wait, [0, 2551]);
}

#[test]
fn numbers_are_read_in_every_spelling() {
    let motion = |dx, dy| Some(Input::Motion { dx, dy });
    assert_eq!(parse(b"M\t-0\t0000"), motion(0, 0));
    assert_eq!(parse(b"M\t-064\t0064"), motion(-64, 64));
    assert_eq!(parse(b"M\t-9999\t9999"), motion(-9999, 9999));
    assert_eq!(parse(b"M\t00064\t0"), None);
    assert_eq!(parse(b"F\t0001"), Some(Input::Sample(1)));
}
