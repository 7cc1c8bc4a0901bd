//! Request A5: "The host's side of the wire."

use model::controller::step;
use model::due::{Packet, Sender};
use model::generator::session;
use model::listing::listed;
use model::packet_check::sessions::unmonitored;
use model::packet_check::tally::{Tally, BAD_LINE, NO_PACKET, TOO_FEW};
use model::papers;
use model::program::{run, session_head, Format};
use model::random::Random;
use model::receiver::{first, First, Kind};
use model::rules::Rules;
use model::text::parse;

fn cut(bytes: &[u8]) -> First {
    first(bytes, &Rules::DOCUMENT)
}

/// The numbers in words such as "0xF6", "0xF8 to 0xFB", "0xFE and 0xFF" or "1 to
/// 0x72".
fn codes(words: &[&str]) -> Vec<u8> {
    let number = |word: &str| u8::from_str_radix(word.trim_start_matches("0x"), 16).unwrap();
    match words {
        [one] => vec![number(one)],
        [one, "and", other] => vec![number(one), number(other)],
        [first, "to", last] => (number(first)..=number(last)).collect(),
        _ => panic!("{words:?}"),
    }
}

/// The length of the packet that each first byte starts, read from the request's
/// own words; 0 where it starts none.
fn lengths() -> [usize; 256] {
    let rows = "0xF6 8, 0xF7 6, 0xF8 to 0xFB 3, 0xFC 7, 0xFD 3, 0xFE and 0xFF 2";
    let keys = "1 to 0x72, 0x74, 0x75";
    let mut lengths = [0; 256];
    for row in rows.split(", ") {
        let words: Vec<&str> = row.split(' ').collect();
        let (length, words) = words.split_last().unwrap();
        for code in codes(words) {
            lengths[usize::from(code)] = length.parse().unwrap();
        }
    }
    for words in keys.split(", ") {
        for code in codes(&words.split(' ').collect::<Vec<_>>()) {
            // "the breaks of all these, 1"
            lengths[usize::from(code)] = 1;
            lengths[usize::from(code) + 0x80] = 1;
        }
    }
    lengths
}

#[test]
fn every_first_byte_with_every_length_is_as_the_request_lists_it() {
    let random = &mut Random::new(5);
    for (start, length) in (0..=255u8).zip(lengths()) {
        for count in (0..=12).cycle().take(13 * 20) {
            let mut bytes = vec![start];
            bytes.extend((0..12).map(|_| random.byte()));
            let cut = cut(&bytes[..count]);
            let (taken, refusal) = match (count, length) {
                (0, _) => (0, None),
                (_, 0) => (0, Some(6)),
                _ if count < length => (0, None),
                _ => (length, None),
            };
            assert_eq!((cut.length(), cut.refusal()), (taken, refusal), "{bytes:?}");
            let is_packet = matches!(cut, First::Packet(..));
            assert_eq!(is_packet, taken > 0);
        }
    }
}

/// The protocol's section 3 says what the codes from 0xF6 on are; below them are
/// makes and breaks.
#[test]
fn every_first_byte_has_its_kind() {
    let rows = [
        ("01 to 72", Kind::Make),
        ("74 and 75", Kind::Make),
        ("81 to EF", Kind::Break),
        ("F0", Kind::VersionOrBreak70),
        ("F1 and F2", Kind::Break),
        ("F4 and F5", Kind::Break),
        ("F6", Kind::Status),            // "status report"
        ("F7", Kind::MousePosition),     // "absolute mouse position record"
        ("F8 to FB", Kind::MouseMotion), // "relative mouse position records"
        ("FC", Kind::Time),              // "time-of-day"
        ("FD", Kind::BothSticks),        // "joystick report (both sticks)"
        ("FE", Kind::StickEvent),        // "joystick 0 event"
        ("FF", Kind::StickEvent),        // "joystick 1 event"
    ];
    let mut starts = 0;
    for (words, kind) in rows {
        for start in codes(&words.split(' ').collect::<Vec<_>>()) {
            let cut = cut(&[start, 0, 0, 0, 0, 0, 0, 0]);
            assert_eq!(cut, First::Packet(kind, cut.length()), "{start:02X}");
            starts += 1;
        }
    }
    assert_eq!(starts, 256 - 14);
}

/// Reading 90: "cutting 80, F3, F5, and nothing"; and "6 for 00, 73, 76 to 80, F3
/// and nothing else".
#[test]
fn what_starts_no_packet() {
    assert_eq!(cut(&[0x80]), First::NoPacket);
    assert_eq!(cut(&[0xF3]), First::NoPacket);
    assert_eq!(cut(&[0xF5]), First::Packet(Kind::Break, 1));
    assert_eq!(cut(&[]), First::TooFew);
    assert_eq!((cut(&[]).length(), cut(&[]).refusal()), (0, None));
    let refused: Vec<u8> = (0..=255)
        .filter(|&start| cut(&[start]).refusal() == Some(6))
        .collect();
    let listed = "00, 73, 76 to 80, F3".split(", ");
    let listed = listed.flat_map(|words| codes(&words.split(' ').collect::<Vec<_>>()));
    assert_eq!(refused, listed.collect::<Vec<u8>>());
}

/// The output of the text program for a session in the readings' notation.
fn played(session: &str) -> Vec<u8> {
    let text: String = papers::lines(session)
        .iter()
        .map(|line| format!("{line}\n"))
        .collect();
    output_for(text.as_bytes())
}

fn output_for(mut session: &[u8]) -> Vec<u8> {
    let mut output = Vec::new();
    run(&mut session, &mut output, Format::Text).expect("a write to memory");
    output
}

/// The list of an input without its header; tabs as spaces, line feeds as `;`.
fn list(input: &[u8]) -> String {
    let output = listed(input, Rules::DOCUMENT);
    let text = String::from_utf8(output).expect("text");
    let lines = text.strip_prefix("packet\tbytes\n").expect("a header");
    lines.trim_end().replace('\t', " ").replace('\n', "; ")
}

/// Reading 115: "each break code after a reset's 0xF0 is a packet of its own.
/// \"Too few\" has length 0."
#[test]
fn a_reset_with_keys_held_is_cut_into_packets_of_one_byte() {
    let output = played("K 02 1; K 70 1; K 72 1; 80 01");
    let reset = "version or break 70 F0; break 82; version or break 70 F0; break F2";
    assert_eq!(list(&output), format!("make 02; make 70; make 72; {reset}"));
    for start in [0xF6, 0xF7, 0xF8, 0xFB, 0xFC, 0xFD, 0xFE, 0xFF] {
        assert_eq!((cut(&[start]), cut(&[start]).length()), (First::TooFew, 0));
    }
}

/// "save those still queued or dropped by a reset"
#[test]
fn what_is_queued_or_dropped_is_not_cut() {
    assert_eq!(list(&played("13; K 1E 1; M 5 5")), "");
    assert_eq!(
        list(&played("13; K 1E 1; 80 01; K 1F 1")),
        "version or break 70 F0; break 9E; make 1F"
    );
    assert_eq!(
        list(&played("13; K 1E 1; M 5 5; L 1; 16")),
        "make 1E; mouse motion FA0505; both sticks FD0000"
    );
}

/// "cutting the joined output gives the packets that fell due, in order"
#[test]
fn what_is_sent_without_monitoring_is_cut_back_into_its_packets() {
    let mut tally = Tally::default();
    for seed in 0..150 {
        let (kept, due) = unmonitored(&session(seed, 2_000, Format::Text));
        assert_eq!(listed(&output_for(&kept), Rules::DOCUMENT), due, "{seed}");
        tally.saw(&due);
    }
    let others = [NO_PACKET, TOO_FEW, BAD_LINE];
    assert_eq!(tally.lacks(300, &[]).len(), others.len(), "{tally}");
    assert_eq!(tally.lacks(300, &others), [""; 0]);
}

/// The same with short buffers, in which inputs are refused with 4.
#[test]
fn what_is_sent_in_short_buffers_is_cut_back_into_its_packets() {
    let (mut sender, mut lent) = (Sender::new(), 0);
    let (mut sent, mut joined) = (Vec::new(), Vec::new());
    let (mut packets, mut refused) = (0, 0);
    for line in session(1, 200_000, Format::Vectors).split(|&byte| byte == b'\n') {
        if let Some(next) = session_head(line) {
            packets += sent.len();
            assert_eq!(cut_all(&joined), std::mem::take(&mut sent));
            (sender, lent, joined) = (Sender::new(), next, Vec::new());
        }
        let Some(input) = parse(line).filter(|&input| !sender.would_monitor(input)) else {
            continue;
        };
        let (mut state, mut out) = (sender.state, Vec::new());
        let answer = step(&mut state, input, lent, &mut out);
        joined.extend(out);
        assert_eq!(sender.take(input, lent, &mut sent), answer);
        refused += u32::from(answer.is_err());
    }
    assert!(packets > 30_000 && refused > 3_000, "{packets} {refused}");
}

/// All packets of `bytes`, which nothing else may be.
fn cut_all(mut bytes: &[u8]) -> Vec<Packet> {
    let mut packets = Vec::new();
    while let First::Packet(kind, length) = cut(bytes) {
        let (packet, rest) = bytes.split_at(length);
        packets.push(Packet {
            kind,
            bytes: packet.to_vec(),
        });
        bytes = rest;
    }
    assert_eq!(bytes, []);
    packets
}

/// What the monitoring modes report are no packets: two bytes of the sticks are
/// two keys, or a report takes bytes of the packet behind it, or starts none.
#[test]
fn what_is_sent_while_monitoring_cannot_be_cut() {
    // Document 01's session 12.
    let monitored = played("17 02; S 1 8 0; S 0 1 1; T *2");
    assert_eq!(list(&monitored), "make 02; make 18");
    let swallowed = played("S 0 15 0; S 1 8 0; 17 01; T; 14; K 1E 1; K 1E 0; K 1F 1");
    let report = "stick event FF08; no packet 00; mouse motion F81E9E; make 1F";
    assert_eq!(list(&swallowed), report);
    let samples = played("18; F 1 *6; F 0 *2; 14; K 1E 1");
    assert_eq!(list(&samples), "too few FC1E");
}
