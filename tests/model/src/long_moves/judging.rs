//! What a program printed for a session of moves, held against the laws and against
//! what the model's text program prints.

use super::laws::{judge, wanted, Packet};
use super::moves::Way;
use super::session::{Move, Session};
use super::tally::Tally;
use crate::differing::{first_difference, line_of, text_of};
use crate::ledger::lines::{read_reply, Reply};
use crate::process::output_of;
use crate::program::{printed, Format};
use crate::rules::Rules;
use crate::text::{push_hex, push_line, HEADER};

/// What a program's packets are held against.
#[derive(Clone, Copy, Debug, PartialEq, Eq)]
pub enum By {
    Laws,
    Model,
}

/// Plays every move to a program, and judges each session by both, one `first`.
/// Gives what was seen, or the first move that is wrong.
pub fn check_all(program: &str, first: By) -> Result<Tally, String> {
    let order = match first {
        By::Laws => [By::Laws, By::Model],
        By::Model => [By::Model, By::Laws],
    };
    let mut tally = Tally::default();
    for way in Way::ALL {
        let session = Session::new(way);
        let text = session.text();
        let ours = output_of(program, text.as_bytes());
        for by in order {
            match by {
                By::Laws => check_laws(&session, &ours, &mut tally)?,
                By::Model => {
                    let theirs = printed(text.as_bytes(), Format::Text, Rules::DOCUMENT);
                    check_same(&session, &ours, &theirs)?;
                }
            }
        }
    }
    Ok(tally)
}

/// That every line is taken and writes nothing but the packets of its move, and that
/// none comes after the last.
pub fn check_laws(session: &Session, output: &[u8], tally: &mut Tally) -> Result<(), String> {
    let output = String::from_utf8_lossy(output);
    let mut lines = output.split_terminator('\n');
    if lines.next().map(str::as_bytes) != HEADER.strip_suffix(b"\n") {
        return Err("the output has no header".into());
    }
    let starts = session.moves.first().map_or(0, |first| first.lines[0]);
    for number in 1..=starts {
        let silent = check_line(lines.next(), number, &[]);
        silent.map_err(|what| format!("before the moves: {what}"))?;
    }
    for a_move in &session.moves {
        let packets = check_move(a_move, &mut lines);
        let packets = packets.map_err(|what| format!("{}{what}", named(a_move)))?;
        tally.saw(a_move, &packets);
    }
    match lines.next() {
        None => Ok(()),
        Some(line) => Err(format!("the output goes on after the last line: {line}")),
    }
}

/// The packets of a move, which keep the laws; or what is wrong, with what came and
/// what should have.
fn check_move<'a>(
    a_move: &Move,
    lines: &mut impl Iterator<Item = &'a str>,
) -> Result<Vec<Packet>, String> {
    let [start, end] = a_move.lines;
    for number in start + 1..end {
        check_line(lines.next(), number, &wanted_before(a_move, number))?;
    }
    let (line, wanted) = (lines.next(), wanted(a_move));
    let reply = line.and_then(|line| read_reply(line, end));
    match reply.filter(|reply| reply.answer == 0) {
        Some(Reply { bytes, .. }) => judge(a_move, &bytes)
            .map_err(|what| differing(&what, &in_packets(&bytes), &in_packets(&wanted))),
        None => {
            let what = format!("line {end} is no taken line of packets");
            Err(differing(&what, came(line), &output_line(end, &wanted)))
        }
    }
}

/// What a line of a move before its last should write: nothing, but where no button
/// sends the move, one goes before it, and nothing is held.
fn wanted_before(a_move: &Move, number: usize) -> Vec<u8> {
    match number == a_move.lines[0] + 1 && !a_move.way.is_button() {
        true => vec![0xF8 + a_move.levels, 0, 0],
        false => vec![],
    }
}

/// That a line is taken and writes these bytes.
fn check_line(line: Option<&str>, number: usize, bytes: &[u8]) -> Result<(), String> {
    let wanted = output_line(number, bytes);
    if line == Some(&wanted) {
        return Ok(());
    }
    let what = match bytes {
        [] => format!("line {number} is no taken line without bytes"),
        _ => format!("line {number} is no taken line of a packet without motion"),
    };
    Err(differing(&what, came(line), &wanted))
}

fn came(line: Option<&str>) -> &str {
    line.unwrap_or("(no such line)")
}

/// The output line of a line that is taken.
fn output_line(number: usize, bytes: &[u8]) -> String {
    let mut line = Vec::new();
    push_line(number as u64, 0, bytes, &mut line);
    text_of(&line)
}

/// That both outputs are the same.
pub fn check_same(session: &Session, ours: &[u8], theirs: &[u8]) -> Result<(), String> {
    let Some(place) = first_difference(ours, theirs) else {
        return Ok(());
    };
    let [ours, theirs] = [ours, theirs].map(|output| line_of(output, place));
    let at = |a_move: &&Move| a_move.lines[1] >= place;
    let totals = session.moves.iter().find(at).map_or("".into(), named);
    Err(format!(
        "{totals}the model gives something else\nours:   {ours}\ntheirs: {theirs}"
    ))
}

/// A move in words.
fn named(a_move: &Move) -> String {
    let [x, y] = a_move.totals;
    format!("X {x} Y {y} sent by {}: ", a_move.way.words())
}

/// What is wrong, with what came and what should have.
fn differing(what: &str, got: &str, wanted: &str) -> String {
    format!("{what}\ngot:    {got}\nwanted: {wanted}")
}

/// Bytes in hex, as packets parted by spaces.
fn in_packets(bytes: &[u8]) -> String {
    let packets = bytes.chunks(3).map(|packet| {
        let mut hex = Vec::new();
        push_hex(packet, &mut hex);
        String::from_utf8(hex).expect("digits")
    });
    match bytes.is_empty() {
        true => "-".into(),
        false => packets.collect::<Vec<_>>().join(" "),
    }
}
