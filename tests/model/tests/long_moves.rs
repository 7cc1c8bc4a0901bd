//! Request A6: "Smooth long moves."

use model::limits::HELD_LIMIT;
use model::long_moves::judging::{check_laws, check_same};
use model::long_moves::laws::{fits, judge, wanted};
use model::long_moves::moves::Way;
use model::long_moves::session::Session;
use model::long_moves::tally::Tally;
use model::mouse::split;
use model::program::{printed, Format};
use model::rules::Rules;

/// Moves with every total on one axis, and on the other as much, the opposite, none,
/// a step either way, and the most.
fn moves() -> impl Iterator<Item = [i32; 2]> {
    let others = |total: i32| [total, -total, 0, 1, -1, HELD_LIMIT, -HELD_LIMIT];
    let all = -HELD_LIMIT..=HELD_LIMIT;
    let pairs = all.flat_map(move |total| others(total).map(|other| [total, other]));
    pairs.flat_map(|[x, y]| [[x, y], [y, x]])
}

/// "Same number of packets": "The fewest packets are sent", and at least one.
#[test]
fn the_fewest_packets_are_sent() {
    for totals in moves() {
        let count = split(totals).len() as i64;
        assert!(fits(totals, count), "{totals:?}");
        assert!(count == 1 || !fits(totals, count - 1), "{totals:?}");
    }
    // Reading 91: "256 needs 3, -256 needs 2"
    assert_eq!([256, -256].map(|total| split([total, 0]).len()), [3, 2]);
}

/// "Every part must still fit -128 to 127."
#[test]
fn every_part_fits() {
    for totals in moves() {
        let mut parts = split(totals).into_iter().flatten();
        assert!(parts.all(|part| (-128..=127).contains(&part)), "{totals:?}");
    }
}

/// "of n packets the k-th, from 0, carries t·(k+1)/n less t·k/n, each division
/// rounded down": what the packets up to it have carried is the whole number that is
/// not above t·(k+1)/n, while the next one is. The last makes the total full.
#[test]
fn the_kth_packet_takes_a_move_to_its_part() {
    for totals in moves() {
        let parts = split(totals);
        let n = parts.len() as i32;
        for (axis, t) in totals.into_iter().enumerate() {
            let mut carried = 0;
            for (k, part) in (0..).zip(&parts) {
                carried += part[axis];
                assert!(carried * n <= t * (k + 1), "{totals:?}");
                assert!(t * (k + 1) < (carried + 1) * n, "{totals:?}");
            }
            assert_eq!(carried, t);
        }
    }
}

/// What the model prints for a session of moves.
fn played(session: &Session, rules: Rules) -> String {
    let output = printed(session.text().as_bytes(), Format::Text, rules);
    String::from_utf8(output).expect("text")
}

fn judged(session: &Session, output: &str) -> Result<(), String> {
    check_laws(session, output.as_bytes(), &mut Tally::default())
}

/// The ways in which moves break the laws.
fn broken(sessions: &[(Way, Session)], rules: Rules) -> Vec<Way> {
    let keeps = |session: &Session| judged(session, &played(session, rules)).is_ok();
    let broken = sessions.iter().filter(|(_, session)| !keeps(session));
    broken.map(|(way, _)| *way).collect()
}

/// Each wrong variant breaks the laws in each way in which it is wrong, and in no
/// other.
#[test]
fn the_laws_find_the_wrong_variants() {
    let sessions = Way::ALL.map(|way| (way, Session::new(way)));
    for number in 61..=70 {
        let wrong: &[Way] = match number {
            // In two packets, the most of a button while not paused, the rest is
            // rightly in the last.
            63 => &[Way::Resume, Way::PausedButton, Way::Motion],
            66 => &[Way::PausedButton, Way::Button],
            67 => &[Way::Resume],
            69 => &[Way::Motion],
            _ => &Way::ALL,
        };
        assert_eq!(broken(&sessions, Rules::wrong(number)), wrong, "{number}");
    }
    assert_eq!(broken(&sessions, Rules::DOCUMENT), []);
    assert_eq!(Rules::wrong(71).split_fault, None);
}

/// What a report shows as wanted keeps the laws.
#[test]
fn what_is_wanted_keeps_the_laws() {
    for way in Way::ALL {
        for a_move in Session::new(way).moves {
            let packets = judge(&a_move, &wanted(&a_move));
            assert!(packets.is_ok(), "{a_move:?}: {packets:?}");
        }
    }
}

/// Each way is played at every level of the buttons.
#[test]
fn the_levels_go_round() {
    for way in Way::ALL {
        let moves = Session::new(way).moves;
        let levels: Vec<u8> = moves.iter().map(|a_move| a_move.levels).collect();
        assert!(levels.chunks(4).all(|turn| [2, 3, 1, 0].starts_with(turn)));
    }
}

/// What the laws say of an output in which one thing is put for another.
fn spoiled(session: &Session, right: &str, from: &str, to: &str) -> String {
    let output = right.replacen(from, to, 1);
    assert_ne!(output, right);
    judged(session, &output).unwrap_err()
}

/// The output is read whole: its header, each line and its end.
#[test]
fn an_output_of_another_form_is_found() {
    let session = Session::new(Way::Button);
    let right = played(&session, Rules::DOCUMENT);
    let last = right.lines().last().unwrap();
    let found = |from: &str, to: &str| spoiled(&session, &right, from, to);
    assert!(found("answer", "answers").contains("no header"));
    assert!(found("\n1\t0\t-", "\n1\t4\t-").contains("before the moves"));
    assert!(found("\n4\t0\t-", "\n4\t3\t-").contains("line 4"));
    assert!(found("\n4\t0\t-", "\n4\t0\tF80000").contains("line 4"));
    assert!(found("\n4\t0\t-", "").contains("line 4"));
    // The first move.
    assert!(found("\n8\t0\tFA8100FA8100", "\n8\t4\t-").contains("X -254 Y 0"));
    assert!(found(last, "").contains("no taken line of packets"));
    assert!(found(last, &format!("{last}\n1\t0\t-")).contains("goes on"));
}

/// A report has the move, what is wrong, what came and what should have: the packets
/// where they break a law, and else the output line.
#[test]
fn a_report_shows_what_came() {
    let button = Session::new(Way::Button);
    let right = played(&button, Rules::DOCUMENT);
    let found = |from: &str, to: &str| spoiled(&button, &right, from, to);
    assert_eq!(
        found("\n8\t0\tFA8100FA8100", "\n8\t0\tFA8000FA8200"),
        "X -254 Y 0 sent by a button: two parts of X differ by more than 1\n\
         got:    FA8000 FA8200\n\
         wanted: FA8100 FA8100"
    );
    assert_eq!(
        found("\n8\t0\tFA8100FA8100", "\n8\t0\tFA8100FA810"),
        "X -254 Y 0 sent by a button: line 8 is no taken line of packets\n\
         got:    8\t0\tFA8100FA810\n\
         wanted: 8\t0\tFA8100FA8100"
    );
    assert_eq!(
        found("\n7\t0\t-", "\n7\t0\tF88100"),
        "X -254 Y 0 sent by a button: line 7 is no taken line without bytes\n\
         got:    7\t0\tF88100\n\
         wanted: 7\t0\t-"
    );
    // Where no button sends a move, one goes before it.
    let resume = Session::new(Way::Resume);
    let right = played(&resume, Rules::DOCUMENT);
    assert_eq!(
        spoiled(&resume, &right, "\n1\t0\tFA0000", "\n1\t0\t-"),
        "X -2032 Y 0 sent by a resume: line 1 is no taken line of a packet without motion\n\
         got:    1\t0\t-\n\
         wanted: 1\t0\tFA0000"
    );
    let header = right.lines().next().unwrap();
    assert_eq!(
        judged(&resume, header),
        Err(
            "X -2032 Y 0 sent by a resume: line 1 is no taken line of a packet without motion\n\
             got:    (no such line)\n\
             wanted: 1\t0\tFA0000"
                .into()
        )
    );
}

/// Where the model gives something else, the move is named.
#[test]
fn a_difference_from_the_model_is_found() {
    let session = Session::new(Way::Motion);
    let right = played(&session, Rules::DOCUMENT);
    let wrong = played(&session, Rules::wrong(70));
    let same = |ours: &str| check_same(&session, ours.as_bytes(), right.as_bytes());
    assert_eq!(same(&right), Ok(()));
    // The first X that needs fewer packets than Y.
    let report = same(&wrong).unwrap_err();
    assert!(
        report.starts_with("X -256 Y 318 sent by motion"),
        "{report}"
    );
}
