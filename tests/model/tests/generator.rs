//! The sessions made at random are good for a comparison: they are the same for
//! the same seed, visit everything, and show that the wrong variants are wrong.

use model::coverage::Coverage;
use model::generator::{session, session_and_kinds};
use model::keys::COUNT;
use model::limits::{BUFFER, QUEUE_ROOM};
use model::mouse::REPORT;
use model::program::{printed, session_head, Format, Player};
use model::rules::Rules;
use model::saved::{LONGEST, SHORTEST};
use model::spoil::KINDS;
use model::text::BAD_LINE;

#[test]
fn the_same_seed_gives_the_same_session() {
    for format in [Format::Text, Format::Vectors] {
        assert_eq!(session(7, 5000, format), session(7, 5000, format));
        assert_ne!(session(7, 5000, format), session(8, 5000, format));
    }
}

#[test]
fn a_session_has_as_many_lines_as_asked() {
    for format in [Format::Text, Format::Vectors] {
        for lines in [0, 1, 2, 10, 999] {
            for seed in 0..20 {
                let text = session(seed, lines, format);
                let parts = text.split_inclusive(|&byte| byte == b'\n');
                assert_eq!(parts.count(), lines);
            }
        }
    }
}

#[test]
fn the_buffers_of_the_short_sessions() {
    // The seeds and lines of tests/run, which names these lengths.
    let heads: Vec<usize> = (1..=60).flat_map(heads_of).collect();
    let about_lines = [SHORTEST - 1, SHORTEST, LONGEST - 1, LONGEST];
    for length in (0..=COUNT + 2)
        .chain([BUFFER - 1, BUFFER])
        .chain(about_lines)
    {
        assert!(heads.contains(&length), "no buffer of {length}");
    }
    let short = heads.iter().filter(|&&length| length <= 20).count();
    assert!(heads.len() > 10_000 && short > heads.len() / 2);
}

fn heads_of(seed: u64) -> Vec<usize> {
    let text = session(seed, 13_000, Format::Vectors);
    let lines = text.split(|&byte| byte == b'\n');
    lines.filter_map(session_head).collect()
}

#[test]
fn every_answer_and_every_pair_of_modes_is_met() {
    for format in [Format::Text, Format::Vectors] {
        let coverage = Coverage::of(&session(1, 300_000, format), format);
        for answer in [0, 1, 2, 3, 9] {
            assert!(coverage.answers[answer] > 100);
        }
        // The text program's buffer is never too short, and it has no panel.
        for answer in [4, 7] {
            assert_eq!(coverage.answers[answer] > 100, format == Format::Vectors);
        }
        assert_eq!(coverage.longest, BUFFER);
        let pairs = coverage.pairs.as_flattened().as_flattened();
        assert!(pairs.iter().all(|&lines| lines > 100));
        let roles = coverage.roles.as_flattened().as_flattened();
        assert!(roles.iter().all(|&lines| lines > 100));
    }
}

/// Good lines are loaded in each mouse mode with each joystick mode, spoiled ones
/// of each kind; and lines are saved with room for just the line, and for less.
#[test]
fn saved_lines_meet_in_every_way() {
    let (text, kinds) = session_and_kinds(1, 300_000, Format::Vectors);
    let saved = Coverage::of(&text, Format::Vectors).saved;
    assert_eq!(saved.met.len(), 12 + 8 + 3);
    for (what, &count) in &saved.met {
        assert!(count > 10, "{what}: {count}");
    }
    assert!(saved.pairs.as_flattened().iter().all(|&loads| loads > 40));
    for (kind, words) in KINDS {
        let count = kinds.get(&kind).copied().unwrap_or(0);
        assert!(count > 10, "{words}: {count}");
    }
    // The text program has none of it.
    let (text, kinds) = session_and_kinds(1, 100_000, Format::Text);
    let saved = Coverage::of(&text, Format::Text).saved;
    assert!(saved.met.is_empty() && kinds.is_empty());
}

/// Most are asked while paused, many of a queue that holds something or is
/// full, after a refusal, or within a command.
#[test]
fn questions_are_asked_where_they_show_something() {
    let text = session(1, 300_000, Format::Vectors);
    let mut player = Player::new(Format::Vectors, Rules::DOCUMENT, BUFFER);
    let (mut last, mut bad) = (0, 0);
    let mut good = [0; 6];
    for line in text.split(|&byte| byte == b'\n') {
        if let Some(lent) = session_head(line) {
            player.restart(lent);
            continue;
        }
        let before = player.state;
        let answer = player.play(line, &mut Vec::new());
        if line == b"?\tqueue" {
            assert_eq!((answer, player.written()), (0, before.queue.bytes().len()));
            assert_eq!(player.state, before);
            let met = [
                !before.paused,
                before.paused,
                !before.queue.bytes().is_empty(),
                before.queue.bytes().len() == QUEUE_ROOM,
                (1..=4).contains(&last),
                before.command.is_half_received(),
            ];
            for (count, met) in good.iter_mut().zip(met) {
                *count += u32::from(met);
            }
        } else if line == b"?\tlamp" {
            assert_eq!((answer, player.written()), (0, 1));
            assert_eq!(player.state, before);
        } else if line == b"?\tsave" {
            assert!(answer == 0 || (answer == 4 && player.written() == 0));
            assert_eq!(player.state, before);
        } else if line == b"?\tlook" {
            let bytes = if answer == 0 { REPORT } else { 0 };
            assert!(matches!(answer, 0 | 4 | 7) && player.written() == bytes);
            assert_eq!(player.state, before);
        } else if line.starts_with(b"?") && !matches!(answer, 0 | 5) {
            assert_eq!(answer, BAD_LINE);
            assert_eq!(player.state, before);
            bad += 1;
        }
        last = answer;
    }
    let [running, paused, ..] = good;
    assert!(paused > running);
    assert!(good.iter().all(|&count| count > 50) && bad > 50);
}

/// Four are rare here, and are for the stored sessions: a day too many in May (37), a
/// packet too many (65), full packets at motion (69) and latches cleared by a report
/// that fills the queue (110).
#[test]
fn the_wrong_variants_are_seen() {
    let text = session(1, 100_000, Format::Text);
    let right = printed(&text, Format::Text, Rules::DOCUMENT);
    let shows = |number| printed(&text, Format::Text, Rules::wrong(number)) != right;
    let long_moves = [61, 62, 63, 64, 66, 67, 68, 70];
    let shown = (1..=15).chain([36]).chain(38..=48).chain(long_moves);
    for number in shown.chain(98..=104).chain([109]) {
        assert!(shows(number), "{number}");
    }
    // No line of the text program tells the lamp, a saved line, a short buffer or the
    // panel (16 to 35, 49, 71 to 97, and 105 to 108); 50 to 60 are wrong on the host's
    // side; 0 and 111 are not wrong.
    let not_shown = (16..=35).chain(49..=60).chain(71..=97).chain(105..=108);
    for number in not_shown.chain([0, 111]) {
        assert!(!shows(number), "{number}");
    }
}

/// Those that only short buffers, the lamp, saved lines and the panel show, and
/// others. A 31st day in every month and a memory load without data are for
/// `saved_lines`.
#[test]
fn the_wrong_variants_of_the_vectors_are_seen() {
    let text = session(1, 400_000, Format::Vectors);
    let right = printed(&text, Format::Vectors, Rules::DOCUMENT);
    let shows = |number| printed(&text, Format::Vectors, Rules::wrong(number)) != right;
    let shown = (10..=35).filter(|number| ![27, 31].contains(number));
    for number in shown.chain(38..=49).chain(61..=110) {
        assert!(shows(number), "{number}");
    }
    assert!(!shows(111));
}
