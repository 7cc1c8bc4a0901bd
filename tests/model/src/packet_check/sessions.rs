//! What the text program writes, cut: any of it as the model cuts it, and, while
//! "0x17 and 0x18 are never executed", into the packets that fell due.

use super::tally::Tally;
use super::{check, parting, TRIES};
use crate::differing::shortest;
use crate::due::Sender;
use crate::generator::session;
use crate::limits::BUFFER;
use crate::listing::{push_packet, HEADER};
use crate::process::output_of;
use crate::program::Format;
use crate::text::parse;

/// How many lines a session has.
const LINES: usize = 2_000;

/// The programs, each with words after its name.
pub struct Programs<'a> {
    pub packets: &'a str,
    pub ikbd: &'a str,
}

/// What was met in sessions of every kind, and in those that never monitor.
#[derive(Default)]
pub struct Tallies {
    pub any: Tally,
    pub unmonitored: Tally,
}

impl Tallies {
    pub fn bytes(&self) -> u64 {
        self.any.bytes + self.unmonitored.bytes
    }
}

/// Plays sessions until so many bytes have been cut, and in both ways some.
pub fn check_all(programs: &Programs, seed: u64, bytes: u64) -> Result<Tallies, String> {
    let mut tallies = Tallies::default();
    for seed in seed.. {
        if tallies.bytes() >= bytes && tallies.unmonitored.inputs > 0 {
            break;
        }
        let session = session(seed, LINES, Format::Text);
        let output = output_of(programs.ikbd, &session);
        tallies
            .any
            .saw(&check(programs.packets, "what ikbd writes", &output)?);
        tallies.unmonitored.saw(&check_due(programs, &session)?);
    }
    Ok(tallies)
}

/// What is cut is what fell due: "cutting the joined output gives the packets that
/// fell due, in order".
fn check_due(programs: &Programs, session: &[u8]) -> Result<Vec<u8>, String> {
    let (kept, expected) = unmonitored(session);
    let cut = |kept: &[u8]| output_of(programs.packets, &output_of(programs.ikbd, kept));
    if cut(&kept) == expected {
        return Ok(expected);
    }
    let differs = |lines: &[&[u8]]| {
        let (kept, expected) = unmonitored(&lines.concat());
        cut(&kept) != expected
    };
    let lines = kept.split_inclusive(|&byte| byte == b'\n').collect();
    let (short, expected) = unmonitored(&shortest(lines, TRIES, &differs).concat());
    Err(parting(
        "what is cut is not what fell due in a session",
        &short,
        &cut(&short),
        &expected,
    ))
}

/// The session without the bytes 0x17 and 0x18 that would be commands, so that
/// neither is executed; and the list of the packets that it sends.
pub fn unmonitored(session: &[u8]) -> (Vec<u8>, Vec<u8>) {
    let (mut kept, mut listing) = (Vec::new(), HEADER.to_vec());
    let mut sender = Sender::new();
    let mut sent = Vec::new();
    for line in session.split_inclusive(|&byte| byte == b'\n') {
        let input = parse(line.strip_suffix(b"\n").unwrap_or(line));
        match input {
            Some(input) if sender.would_monitor(input) => continue,
            // What is refused sends nothing.
            Some(input) => drop(sender.take(input, BUFFER, &mut sent)),
            None => {}
        }
        kept.extend_from_slice(line);
        for packet in sent.drain(..) {
            push_packet(packet.kind, &packet.bytes, &mut listing);
        }
    }
    (kept, listing)
}
