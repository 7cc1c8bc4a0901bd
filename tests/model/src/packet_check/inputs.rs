//! Long inputs of good and bad lines, made at random.

use super::bytes::{bytes, push_bytes, push_program_line};
use crate::listing::LONGEST_LINE;
use crate::random::Random;
use crate::text::{push_hex, HEADER};

/// An input is longer than so many bytes, so that several blocks end in it.
const INPUT: usize = 5 * 65_536;

/// Lines that are bad.
#[rustfmt::skip]
pub const BAD: &[&[u8]] = &[
    // Neither `-` nor bytes.
    b"", b" ", b"\t", b"\t\t", b"\t\t\t", b"\r", b"\0", b"--", b"- ", b" -", b"-\r", b"-\0", b"-1E",
    b"1E-", b"1", b"E", b"1E9", b"1e", b"aF", b"G0", b"0G", b"0x1E", b"1E 9E", b"1E,9E", b" 1E",
    b"1E ", b"+1", b"-1", b"1E\r", b"1E\0", b"\x001E", b"1\x00E", b"1E9E\x80", b"/0", b":0", b"0/",
    b"0:", b"@0", b"0@", b"`0", b"0`",
    // Not three fields, or an empty one.
    b"1E\t", b"\t1E", b"1\t1E", b"1\t0", b"1\t0\t", b"\t0\t1E", b"1\t\t1E", b"\t\t1E",
    b"1\t0\t1E\t", b"1\t0\t1E\t1E", b"\t1\t0\t1E", b"1\t0\t\t1E", b"-\t", b"\t-", b"-\t-",
    b"-\t-\t-",
    // No numbers before the bytes, or no bytes.
    b"-1\t0\t1E", b"1\t-0\t1E", b"+1\t0\t1E", b"1 \t0\t1E", b" 1\t0\t1E", b"1\t 0\t1E",
    b"A\t0\t1E", b"1\tA\t1E", b"1/\t0\t1E", b"1:\t0\t1E", b"1\t/\t1E", b"1\t:\t1E", b"1\t0\t 1E",
    b"1\t0\t1e", b"1\t0\t1", b"1\t0\t1E9", b"1\t0\t--", b"1\t0\t-1", b"1\t0\t1E\r", b"1\t0\t-\r",
    b"1\t0\t1E\0", b"1\0\t0\t1E", b"1 0 1E",
    // Nearly the header, or another one.
    b"line", b"line\tanswer", b"line\tanswer\t", b"line\tanswer\tbytes\t",
    b"line\tanswer\tbytes\r", b"line\tanswer\tbyte", b"line\tanswer\tbytess",
    b"Line\tanswer\tbytes", b" line\tanswer\tbytes", b"line answer bytes", b"line\tanswer\t1E",
    b"1\tanswer\t1E", b"1\t0\tbytes", b"packet\tbytes", b"make\t1E", b"too few\tF6",
    b"bad line 1\t-",
];

/// Good and bad lines in turn; every other input lacks its last line feed.
pub fn input(random: &mut Random) -> Vec<u8> {
    let mut text = Vec::new();
    while text.len() <= INPUT {
        push_line(random, &mut text);
        text.push(b'\n');
    }
    if random.one_in(2) {
        text.pop();
    }
    text
}

fn push_line(random: &mut Random, text: &mut Vec<u8>) {
    match random.below(300) {
        0 => push_long_line(random, text),
        1..=35 => text.extend_from_slice(random.pick(BAD)),
        36..=45 => text.extend_from_slice(HEADER.trim_ascii_end()),
        46..=105 => push_changed_line(random, text),
        _ => push_good_line(random, text),
    }
}

fn push_good_line(random: &mut Random, text: &mut Vec<u8>) {
    let count = match random.one_in(4) {
        true => 0,
        false => 1 + random.below(10) as usize,
    };
    let bytes = bytes(random, count);
    match random.one_in(2) {
        true => push_program_line(random, &bytes, text),
        false => push_bytes(&bytes, text),
    }
}

/// A good line with a byte changed, added or left out; now and then it is good
/// all the same.
fn push_changed_line(random: &mut Random, text: &mut Vec<u8>) {
    let mut line = Vec::new();
    push_good_line(random, &mut line);
    let place = random.below(line.len() as u64) as usize;
    let byte = other_byte(random);
    match random.below(3) {
        0 => line[place] = byte,
        1 => line.insert(place, byte),
        _ => drop(line.remove(place)),
    }
    text.extend_from_slice(&line);
}

/// Any byte but a line feed, which would make two lines.
fn other_byte(random: &mut Random) -> u8 {
    match random.one_in(2) {
        true => random.pick(b"\0\r\t -0aFfG"),
        false => match random.byte() {
            b'\n' => b'\r',
            byte => byte,
        },
    }
}

/// A line as long as a good one may be, a byte longer, about as long, or far
/// longer. One in four has a byte in it that is bad in any place.
fn push_long_line(random: &mut Random, text: &mut Vec<u8>) {
    let length = match random.below(8) {
        0..=2 => LONGEST_LINE,
        3..=5 => LONGEST_LINE + 1,
        6 => LONGEST_LINE - 8 + random.below(16) as usize,
        _ => LONGEST_LINE + random.below(100_000) as usize,
    };
    let start = text.len();
    // Two digits stand for each byte, so that an odd length needs these.
    match length % 2 {
        1 => text.extend_from_slice(b"10\t0\t"),
        _ if random.one_in(2) => text.extend_from_slice(b"1\t0\t"),
        _ => {}
    }
    let digits = start + length - text.len();
    push_hex(&bytes(random, digits / 2), text);
    if random.one_in(4) {
        let place = start + random.below(length as u64) as usize;
        text[place] = random.pick(b"\0\r g-");
    }
}
