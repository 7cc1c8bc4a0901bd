//! What the sessions that are compared meet: keys and resets, buttons with the mouse
//! off, looks and clearings.

use std::sync::OnceLock;

use model::arbitrary::codes_with_parameters;
use model::coverage::Coverage;
use model::generator::session;
use model::keys::COUNT;
use model::program::Format;

/// What the sessions that `tests/run` compares visit, worked out once.
fn compared(format: Format) -> &'static Coverage {
    static COVERAGES: [OnceLock<Coverage>; 2] = [OnceLock::new(), OnceLock::new()];
    let (seeds, lines) = match format {
        Format::Text => (1..=100, 20_000),
        Format::Vectors => (1..=60, 13_000),
    };
    let sessions = seeds.map(|seed| session(seed, lines, format));
    let coverage = &COVERAGES[usize::from(format == Format::Vectors)];
    coverage.get_or_init(|| Coverage::of_all(sessions, format))
}

/// Every buffer that a reset may need is lent with one while keys are down: up
/// to 0xF0 and 114 breaks, and a byte more.
#[test]
fn keys_and_resets_meet_in_every_way() {
    for format in [Format::Text, Format::Vectors] {
        let keys = &compared(format).keys;
        assert_eq!((keys.met.len(), keys.met_with_vectors.len()), (18, 11));
        assert!(keys.met.values().all(|&count| count > 40));
        match format {
            Format::Text => assert!(keys.met_with_vectors.values().all(|&count| count == 0)),
            Format::Vectors => {
                assert!(keys.met_with_vectors.values().all(|&count| count > 10));
                assert!((0..=COUNT + 2).all(|lent| keys.lent.contains(&lent)));
            }
        }
    }
}

/// With the mouse off the buttons come in every mode, with every action, paused
/// and where there is no room; both joystick modes that monitor have joysticks on
/// unless they are loaded.
#[test]
fn buttons_with_the_mouse_off_meet_in_every_way() {
    for (format, least, least_off, least_on) in
        [(Format::Text, 50, 30, 40), (Format::Vectors, 10, 2, 10)]
    {
        let fire = &compared(format).fire;
        assert_eq!((fire.met.len(), fire.met_with_vectors.len()), (34, 10));
        for (what, &count) in &fire.met {
            assert!(count > least, "{what}: {count}");
        }
        for (what, &count) in &fire.met_with_vectors {
            match format {
                Format::Text => assert_eq!(count, 0, "{what}"),
                Format::Vectors => assert!(count > 10, "{what}: {count}"),
            }
        }
        for by_sticks in fire.modes.as_flattened() {
            let [event, interrogation, _, _, keycode] = by_sticks;
            let off = [event, interrogation, keycode].map(|[off, _]| *off);
            let on = by_sticks.map(|[_, on]| on);
            assert!(off.iter().all(|&count| count > least_off), "{off:?}");
            assert!(on.iter().all(|&count| count > least_on), "{on:?}");
        }
        for left in fire.left_modes {
            assert!(left.iter().all(|&count| count > 10), "{left:?}");
        }
    }
}

/// The panel looks and clears in each mouse mode with each joystick mode, paused or
/// not, with the mouse off or on and either role of port 0; with latches of every
/// value, with every buffer about a report's length, and within every command.
#[test]
fn looks_and_clearings_meet_in_every_way() {
    let look = &compared(Format::Vectors).look;
    assert_eq!(look.met.len(), 17 + 8 + 2 + 14);
    for (what, &count) in &look.met {
        assert!(count > 40, "{what}: {count}");
    }
    for (states, least) in [(look.looks, 10), (look.clearings, 3)] {
        let counts = states.as_flattened().as_flattened().as_flattened();
        assert!(counts.as_flattened().iter().all(|&count| count > least));
    }
    let mut latches = look.shown.iter().chain(&look.emptied);
    assert!(latches.all(|&count| count > 30));
    assert!(look.lent.as_flattened().iter().all(|&count| count > 100));
    for within in &look.within {
        assert!(within.iter().copied().eq(codes_with_parameters()));
    }
    // The text program has none of it.
    let met = &compared(Format::Text).look.met;
    assert!(met.values().all(|&count| count == 0));
}
