//! Received bytes made at random, and lines that give them.

use crate::random::Random;
use crate::receiver::{first, First};
use crate::rules::Rules;
use crate::text::{self, push_decimal, push_hex};

/// First bytes of each kind of packet, and those that start none: each row comes
/// as often as any other, so that all come often.
const STARTS: [(u8, u8); 16] = [
    (0x01, 0x72),
    (0x74, 0x75),
    (0x81, 0xEF),
    (0xF0, 0xF0),
    (0xF1, 0xF2),
    (0xF4, 0xF5),
    (0xF6, 0xF6),
    (0xF7, 0xF7),
    (0xF8, 0xFB),
    (0xFC, 0xFC),
    (0xFD, 0xFD),
    (0xFE, 0xFF),
    (0x00, 0x00),
    (0x73, 0x73),
    (0x76, 0x80),
    (0xF3, 0xF3),
];

fn start(random: &mut Random) -> u8 {
    let (first, last) = random.pick(&STARTS);
    random.between(first.into(), last.into()) as u8
}

/// So many bytes. Half of those behind the first are like first bytes too, so
/// that short packets are followed by others.
pub fn bytes(random: &mut Random, count: usize) -> Vec<u8> {
    let byte = |place| match place == 0 || random.one_in(2) {
        true => start(random),
        false => random.byte(),
    };
    (0..count).map(byte).collect()
}

/// How many bytes are left after the last that is cut.
pub fn left_over(mut bytes: &[u8]) -> usize {
    loop {
        let length = match first(bytes, &Rules::DOCUMENT) {
            First::Packet(_, length) => length,
            First::NoPacket => 1,
            First::TooFew => return bytes.len(),
        };
        bytes = &bytes[length..];
    }
}

/// Adds bytes in hex, or `-` for none.
pub fn push_bytes(bytes: &[u8], out: &mut Vec<u8>) {
    if bytes.is_empty() {
        out.push(b'-');
    }
    push_hex(bytes, out);
}

/// Adds two numbers and bytes, as the text program writes them. The numbers are of
/// no account, so that they may be of any length.
pub fn push_program_line(random: &mut Random, bytes: &[u8], out: &mut Vec<u8>) {
    for longest in [24, 3] {
        match random.below(4) {
            0 => push_digits(random, longest, out),
            _ => push_decimal(random.below(10_000), out),
        }
        out.push(b'\t');
    }
    push_bytes(bytes, out);
}

/// One to `longest` digits, which may begin with 0.
fn push_digits(random: &mut Random, longest: u64, out: &mut Vec<u8>) {
    for _ in 0..=random.below(longest) {
        out.push(b'0' + random.below(10) as u8);
    }
}

/// Lines that give `bytes`: one or several, with line feeds or without the last.
pub fn text_of(random: &mut Random, bytes: &[u8]) -> Vec<u8> {
    let mut text = Vec::new();
    match random.below(5) {
        0 | 1 => push_lines(random, bytes, bytes.len().max(1), &mut text),
        2 => push_lines(random, bytes, 1, &mut text),
        _ => {
            let longest = 1 + random.below(5) as usize;
            push_lines(random, bytes, longest, &mut text);
        }
    }
    if random.one_in(3) {
        text.pop();
    }
    text
}

/// Lines with at most so many bytes each. Some give none, and where there are no
/// bytes there is a line all the same.
fn push_lines(random: &mut Random, mut bytes: &[u8], longest: usize, text: &mut Vec<u8>) {
    let as_program = random.one_in(2);
    if as_program {
        text.extend_from_slice(text::HEADER);
    }
    while !bytes.is_empty() || text.is_empty() || random.one_in(4) {
        let count = match random.one_in(6) {
            true => 0,
            false => longest.min(bytes.len()),
        };
        let (part, rest) = bytes.split_at(count);
        match as_program {
            true => push_program_line(random, part, text),
            false => push_bytes(part, text),
        }
        text.push(b'\n');
        bytes = rest;
    }
}
