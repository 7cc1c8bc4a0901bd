//! The program `packets`: lines of received bytes, and the list of their packets.

use model::generator::session;
use model::listing::{listed, push_packet, HEADER, LONGEST_LINE};
use model::packet_check::inputs::{input, BAD};
use model::packet_check::sessions::unmonitored;
use model::packet_check::strings;
use model::program::{run, Format};
use model::random::Random;
use model::receiver::Kind;
use model::rules::Rules;

/// The list of an input without its header; tabs as spaces, line feeds as `;`.
fn list(input: &[u8]) -> String {
    let output = listed(input, Rules::DOCUMENT);
    let text = String::from_utf8(output).expect("text");
    let lines = text.strip_prefix("packet\tbytes\n").expect("a header");
    lines.trim_end().replace('\t', " ").replace('\n', "; ")
}

#[test]
fn good_lines_and_what_they_give() {
    for (input, output) in [
        ("", ""),
        ("-", ""),
        ("-\n-\n", ""),
        ("1E", "make 1E"),
        ("1E9E\n", "make 1E; break 9E"),
        ("line\tanswer\tbytes\n1\t0\t1E\n2\t0\t-\n", "make 1E"),
        ("007\t44\t1E\n", "make 1E"),
        ("F8\n-\n1E\n9\t9\t9E", "mouse motion F81E9E"),
        ("F8\n1E\nline\tanswer\tbytes\n9E", "mouse motion F81E9E"),
        (
            "00731E80",
            "no packet 00; no packet 73; make 1E; no packet 80",
        ),
        ("F6010203", "too few F6010203"),
        ("F0\nFC", "version or break 70 F0; too few FC"),
    ] {
        assert_eq!(list(input.as_bytes()), output, "{input:?}");
    }
}

/// Each is told by its number, and the bytes that wait go on waiting.
#[test]
fn bad_lines_change_nothing() {
    for line in BAD {
        let parts: [&[u8]; 5] = [b"F8\n", line, b"\n0102\n", line, b"\nF6"];
        let output = "bad line 2 -; mouse motion F80102; bad line 4 -; too few F6";
        assert_eq!(list(&parts.concat()), output, "{}", line.escape_ascii());
    }
}

#[test]
fn a_line_has_at_most_32_767_bytes() {
    let digits = LONGEST_LINE - 5;
    let good = format!("10\t0\t{}\n1E", "01".repeat(digits / 2));
    assert_eq!(good.find('\n'), Some(32_767));
    let makes = list(good.as_bytes()).matches("make").count();
    assert_eq!(makes, digits / 2 + 1);
    for long in [32_768, 32_770, 65_536, 200_000] {
        let bad = format!("F8\n{}\n0102", "01".repeat(long / 2));
        assert_eq!(list(bad.as_bytes()), "bad line 2 -; mouse motion F80102");
    }
}

#[test]
fn the_line_of_a_packet() {
    let mut out = HEADER.to_vec();
    push_packet(Kind::StickEvent, &[0xFE, 0x81], &mut out);
    assert_eq!(out, listed(b"FE81", Rules::DOCUMENT));
    assert_eq!(out, b"packet\tbytes\nstick event\tFE81\n");
}

fn differs(input: &[u8], rules: Rules) -> bool {
    listed(input, rules) != listed(input, Rules::DOCUMENT)
}

fn shows_in_lines(rules: Rules) -> bool {
    let random = &mut Random::new(1);
    let mut inputs = (0..8).map(|_| input(random));
    inputs.any(|input| differs(&input, rules))
}

fn shows_in_strings(rules: Rules) -> bool {
    let mut numbers = 0..strings::tried(2_000);
    numbers.any(|number| differs(&strings::string(1, number), rules))
}

fn shows_in_sessions(rules: Rules) -> bool {
    (1..10).any(|seed| {
        let (kept, due) = unmonitored(&session(seed, 2_000, Format::Text));
        let mut output = Vec::new();
        run(&mut &kept[..], &mut output, Format::Text).expect("a write to memory");
        listed(&output, rules) != due
    })
}

/// In each of the three parts of the comparison, as far as it can be: strings have
/// no bad line and no long one, and what the text program writes has packets alone
/// and none that lies across lines.
#[test]
fn the_wrong_variants_of_the_receiver_are_seen() {
    for number in 50..=60 {
        let rules = Rules::wrong(number);
        let in_strings = ![56, 60].contains(&number);
        let in_sessions = [52, 53, 54, 55, 59].contains(&number);
        assert!(shows_in_lines(rules), "{number}");
        assert_eq!(shows_in_strings(rules), in_strings, "{number}");
        assert_eq!(shows_in_sessions(rules), in_sessions, "{number}");
    }
    assert_eq!(Rules::wrong(61).receiver_fault, None);
}
