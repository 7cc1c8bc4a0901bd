//! The ledger of mouse motion, on sessions whose outputs are written out: right
//! ones add up, and wrong ones do not.
//!
//! Inputs are parted by `;`, with bare hex for host bytes; the bytes that came
//! back stand after `>`, and a refusal is its number in brackets.

use model::ledger::account::Account;
use model::ledger::lines::{read_reply, Button, Input};
use model::ledger::scenes::session;
use model::ledger::tally::Tally;

fn input(words: &[&str]) -> Input {
    let number = |place: usize| words[place].parse().unwrap();
    match words[0] {
        "L" => Input::Button(Button::Left, words[1] == "1"),
        "R" => Input::Button(Button::Right, words[1] == "1"),
        "M" => Input::Motion(number(1), number(2)),
        "K" => Input::Key(0x1E, words[1] == "1"),
        "S" => Input::Stick(number(1) as u8, number(2) as u8, number(3) as u8),
        "F" => Input::Sample(number(1) as u8),
        "T" => Input::Tick,
        hex => Input::Host(u8::from_str_radix(hex, 16).unwrap()),
    }
}

/// The number of the last line that closed the account, or what is wrong.
fn closed(session: &str) -> Result<usize, String> {
    let mut tally = Tally::default();
    let mut account = Account::open(&mut tally);
    for item in session.split(';') {
        let (sent, back) = item.split_once('>').unwrap_or((item, "-"));
        let words: Vec<&str> = sent.split_whitespace().collect();
        let line = match back.trim().strip_prefix('(') {
            Some(number) => format!("1\t{}\t-", number.trim_end_matches(')')),
            None => format!("1\t0\t{}", back.trim()),
        };
        account.enter(input(&words), &read_reply(&line, 1).unwrap())?;
    }
    Ok(account.closed)
}

/// Whether what is wrong is said in these words.
fn is_wrong(session: &str, words: &str) -> bool {
    closed(session).is_err_and(|what| what.contains(words))
}

fn does_not_add_up(session: &str) -> bool {
    is_wrong(session, "does not add up")
}

fn writes_where_nothing_is_sent(session: &str) -> bool {
    is_wrong(session, "where nothing is sent")
}

#[test]
fn a_button_sends_all_held_motion() {
    let held = "0B; 0A; 0A; M 5 -3";
    assert_eq!(closed(&format!("{held}; L 1 > FA05FD")), Ok(5));
    assert!(does_not_add_up(&format!("{held}; L 1 > FA0000")));
    assert!(does_not_add_up(&format!("{held}; L 1 > FA05FC")));
    let twice = format!("{held}; L 1 > FA05FD; L 0 > F805FD");
    assert!(does_not_add_up(&twice));
}

#[test]
fn a_button_sends_all_held_motion_while_paused_too() {
    let held = "0B; 0A; 0A; 13; M 5 -3; L 1; M 2 2";
    let right = format!("{held}; 11 > FA05FD; L 0 > F80202");
    assert_eq!(closed(&right), Ok(9));
    // What the button sent stayed held, and is sent once more.
    assert!(does_not_add_up(&format!(
        "{held}; 11 > FA05FD; L 0 > F807FF"
    )));
    // It was dropped.
    assert!(does_not_add_up(&format!(
        "{held}; 11 > FA0000; L 0 > F80202"
    )));
}

#[test]
fn a_resume_sends_what_is_due_in_as_many_packets_as_it_needs() {
    let held = "13; M 64 0; M 64 0; M 64 0";
    let right = format!("{held}; 11 > F86000F86000; R 1 > F90000");
    assert_eq!(closed(&right), Ok(6));
    assert!(does_not_add_up(&format!("{held}; 11 > F86000")));
    // 128 is no X.
    assert!(does_not_add_up(&format!("{held}; 11 > F88000F84000")));
    assert!(does_not_add_up(&format!("{held}; 11")));
}

#[test]
fn each_dy_is_signed_by_the_origin_when_it_came() {
    let held = "0B; 0A; 0A; M 0 5; 0F; M 0 2";
    assert_eq!(closed(&format!("{held}; L 1 > FA0003")), Ok(7));
    assert!(does_not_add_up(&format!("{held}; L 1 > FA00F9")));
}

#[test]
fn motion_counts_only_while_the_mouse_is_live() {
    let dropped = "14; M 5 5; 17; 01; 0F; M 5 5; 16; 14; M 1 1; 07; 00";
    assert_eq!(closed(&format!("{dropped}; L 1 > FA0000")), Ok(12));
    assert!(does_not_add_up(&format!("{dropped}; L 1 > FA0101")));
}

#[test]
fn a_refused_input_counts_for_nothing() {
    let session = "13; M 5 5; M 64 65 > (1); L 1 > (2); M 1 1 > (3); 11 > F80505; L 1 > FA0000";
    assert_eq!(closed(session), Ok(7));
    assert!(is_wrong("K 1 > (4)", "answered with 4"));
}

#[test]
fn a_button_that_is_a_key_or_is_unchanged_sends_no_motion() {
    let held = "0B; 0A; 0A; M 5 5; L 0; 07; 04; L 1 > 74; 07; 00";
    assert_eq!(closed(&format!("{held}; L 0 > F80505")), Ok(11));
    assert!(does_not_add_up(&format!("{held}; L 0 > F80000")));
}

#[test]
fn motion_doubled_at_a_tick_does_not_add_up() {
    let sent = "M 5 5 > F80505";
    assert_eq!(closed(&format!("{sent}; T; L 1 > FA0000")), Ok(3));
    assert!(does_not_add_up(&format!(
        "{sent}; T > F80505; L 1 > FA0000"
    )));
    // In keycode mode a tick may send keys, but no motion either.
    let keycode = format!(
        "{sent}; 19; 0; 0; 0; 0; 1; 1; S 0 8 0 > 4DCD{}",
        "; T".repeat(9)
    );
    let live = "07; 00; L 1 > FA0000";
    assert_eq!(closed(&format!("{keycode}; T > 4DCD; {live}")), Ok(22));
    assert!(does_not_add_up(&format!("{keycode}; T > F80505; {live}")));
}

#[test]
fn a_monitoring_byte_is_no_mouse_packet() {
    let monitored = "S 0 15 0; S 1 8 0 > FF08; 17; 01; T > 00F8";
    let live = "14; 07; 00; L 1 > FA0000";
    assert_eq!(closed(&format!("{monitored}; {live}")), Ok(9));
    let fire_monitored = "18; F 1; F 1; F 1; F 1; F 1; F 0; F 0; F 0 > F8";
    assert_eq!(closed(&format!("{fire_monitored}; {live}")), Ok(13));
}

#[test]
fn a_monitoring_report_has_its_length() {
    for report in ["00", "F80505"] {
        assert!(is_wrong(&format!("17; 01; T > {report}"), "a report has 2"));
    }
    for report in ["00F8", "F80505"] {
        assert!(is_wrong(&format!("18; F 1 > {report}"), "a report has 1"));
    }
}

#[test]
fn both_monitoring_modes_send_nothing_else_for_events() {
    for event in [
        "M 5 5 > F80505",
        "L 1 > FA0000",
        "K 1 > 1E",
        "S 1 1 0 > FF01",
    ] {
        assert!(closed(event).is_ok());
        assert!(writes_where_nothing_is_sent(&format!("17; 01; {event}")));
        assert!(writes_where_nothing_is_sent(&format!("18; {event}")));
    }
    assert!(writes_where_nothing_is_sent("17; 01; F 1 > F8"));
    assert!(writes_where_nothing_is_sent("18; T > 00F8"));
}

#[test]
fn samples_elsewhere_do_nothing() {
    assert_eq!(closed("F 1; 17; 01; F 1; 14; F 1"), Ok(0));
    assert!(writes_where_nothing_is_sent("F 1 > F80505"));
    assert!(writes_where_nothing_is_sent("18; 14; F 1 > F8"));
}

#[test]
fn no_event_writes_while_paused() {
    for event in ["T > 00F8", "F 1 > F8", "K 1 > 1E", "M 5 5 > F80505"] {
        for mode in ["14", "17; 01", "18", "07; 00"] {
            let session = format!("{mode}; 13; {event}");
            assert!(writes_where_nothing_is_sent(&session));
        }
    }
}

#[test]
fn what_is_held_stays_within_its_limits() {
    let limit = format!("13{}; M 48 0", "; M 64 0".repeat(31));
    assert_eq!(closed(&limit), Ok(0));
    assert!(does_not_add_up(&format!("{limit}; M 1 0")));
    // Not paused, a threshold that is reached is not held back.
    assert!(does_not_add_up("0B; 0A; 0A; M 10 0"));
}

#[test]
fn an_excluded_command_is_a_fault_of_the_session() {
    for command in ["08", "09; 0; 0; 0; 0", "0A; 1; 1", "12", "80; 01"] {
        assert!(is_wrong(command, "excluded"));
    }
    assert_eq!(closed("0B; 08; 12; 80; 80; 20; 0; 0; 2; 80; 01"), Ok(0));
}

#[test]
fn the_same_seed_gives_the_ledger_the_same_session() {
    assert_eq!(session(7, 1000), session(7, 1000));
    assert_ne!(session(7, 1000), session(8, 1000));
}
