//! The program `packets`: lines of received bytes go in, a list of the packets
//! that they are cut into comes out.
//!
//! A line has bytes in hex, or is a line of the text program's output, of which
//! only the bytes count. The bytes of all good lines are joined, so that a packet
//! may begin on one line and end on another.

use std::io::{self, Read, Write};

use crate::receiver::{first, First, Kind};
use crate::rules::{ReceiverFault, Rules};
use crate::text::{self, hex, push_decimal, push_hex};
use crate::wire::{Line, Wire};

/// The first line of the output.
pub const HEADER: &[u8] = b"packet\tbytes\n";
/// A longer line, without its line feed, is bad.
pub const LONGEST_LINE: usize = 32_767;

/// The bytes that wait to be cut, and how many lines have come.
pub struct Listing {
    rules: Rules,
    number: u64,
    waiting: Vec<u8>,
}

impl Listing {
    pub fn new(rules: Rules) -> Listing {
        Listing {
            rules,
            number: 0,
            waiting: Vec::new(),
        }
    }

    /// Takes a line without its line feed, and adds to `out` what is whole now.
    /// A bad line changes nothing but the number of the next one.
    pub fn line(&mut self, line: &[u8], out: &mut Vec<u8>) {
        self.number += 1;
        match self.bytes_of(line) {
            Some(bytes) => self.receive(&bytes, out),
            None => self.bad_line(line, out),
        }
        if self.rules.mishears(ReceiverFault::DroppedAtLineEnd) {
            self.waiting.clear();
        }
    }

    fn bytes_of(&self, line: &[u8]) -> Option<Vec<u8>> {
        let longest = self.rules.longest_listed(LONGEST_LINE);
        (line.len() <= longest).then(|| bytes_of(line)).flatten()
    }

    fn bad_line(&mut self, line: &[u8], out: &mut Vec<u8>) {
        if self.rules.mishears(ReceiverFault::BadLineBegun) {
            let begun: Vec<u8> = last_field(line).chunks(2).map_while(hex).collect();
            self.receive(&begun, out);
        }
        out.extend_from_slice(b"bad line ");
        push_decimal(self.number, out);
        out.extend_from_slice(b"\t-\n");
    }

    /// Cuts what waits and `bytes` into packets, as far as they are whole.
    fn receive(&mut self, bytes: &[u8], out: &mut Vec<u8>) {
        self.waiting.extend_from_slice(bytes);
        let mut taken = 0;
        loop {
            let rest = &self.waiting[taken..];
            match first(rest, &self.rules) {
                First::TooFew => break,
                First::Packet(kind, length) => {
                    push_packet(kind, &rest[..length], out);
                    taken += length;
                }
                First::NoPacket => {
                    push_listed("no packet", &rest[..1], out);
                    taken += self.rules.left_behind(rest.len());
                }
            }
        }
        self.waiting.drain(..taken);
    }

    /// The end of the input.
    pub fn end(&mut self, out: &mut Vec<u8>) {
        if !self.waiting.is_empty() {
            push_listed("too few", &self.waiting, out);
        }
    }
}

/// The bytes that a line gives if it is not too long; none if it is bad in any
/// case.
pub fn bytes_of(line: &[u8]) -> Option<Vec<u8>> {
    if text::HEADER.strip_suffix(b"\n") == Some(line) {
        return Some(Vec::new());
    }
    let fields: Vec<&[u8]> = line.split(|&byte| byte == b'\t').collect();
    match fields[..] {
        [bytes] => hex_bytes(bytes),
        [number, answer, bytes] if is_decimal(number) && is_decimal(answer) => hex_bytes(bytes),
        _ => None,
    }
}

pub fn last_field(line: &[u8]) -> &[u8] {
    line.rsplit(|&byte| byte == b'\t')
        .next()
        .unwrap_or_default()
}

/// `-` for no bytes, or two upper-case hex digits for each.
fn hex_bytes(field: &[u8]) -> Option<Vec<u8>> {
    match field {
        b"" => None,
        b"-" => Some(Vec::new()),
        field => field.chunks(2).map(hex).collect(),
    }
}

/// One or more decimal digits.
fn is_decimal(field: &[u8]) -> bool {
    !field.is_empty() && field.iter().all(u8::is_ascii_digit)
}

/// Adds the line of a packet to `out`.
pub fn push_packet(kind: Kind, bytes: &[u8], out: &mut Vec<u8>) {
    push_listed(kind.name(), bytes, out);
}

fn push_listed(name: &str, bytes: &[u8], out: &mut Vec<u8>) {
    out.extend_from_slice(name.as_bytes());
    out.push(b'\t');
    push_hex(bytes, out);
    out.push(b'\n');
}

/// The whole output for `input`.
pub fn listed(input: &[u8], rules: Rules) -> Vec<u8> {
    let mut out = HEADER.to_vec();
    let mut listing = Listing::new(rules);
    for line in input.split_inclusive(|&byte| byte == b'\n') {
        listing.line(line.strip_suffix(b"\n").unwrap_or(line), &mut out);
    }
    listing.end(&mut out);
    out
}

/// Lists the packets of `input` as they come.
pub fn run(input: &mut dyn Read, output: &mut dyn Write) -> io::Result<()> {
    let mut wire = Wire::new(input, output);
    let mut listing = Listing::new(Rules::from_environment());
    wire.out.extend_from_slice(HEADER);
    let mut line = Vec::new();
    // Two bytes more are kept than a good line has, so that a variant that errs
    // by one can be told from one that reads every line.
    while wire.next_line(&mut line, LONGEST_LINE + 2)? != Line::None {
        listing.line(&line, &mut wire.out);
    }
    listing.end(&mut wire.out);
    wire.send()
}
