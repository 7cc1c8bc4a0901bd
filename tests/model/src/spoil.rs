//! Lines of states, spoiled at random in ways of many kinds: most are the line
//! of no state, and some are the line of another.

use crate::arbitrary;
use crate::command::MEMORY_LOAD;
use crate::keys::COUNT;
use crate::limits::QUEUE_ROOM;
use crate::random::Random;
use crate::saved::{write, FIELDS, NUMBERS};
use crate::state::State;

mod ranges;

use ranges::ranges;

/// How a line is spoiled.
#[derive(Clone, Copy, Debug, PartialEq, Eq, PartialOrd, Ord)]
pub enum Kind {
    FieldChanged,
    FieldsSwapped,
    FieldLeftOut,
    FieldTwice,
    FieldEmpty,
    FieldAdded,
    OneAbove,
    OneBelow,
    ModeChanged,
    ChoiceChanged,
    HeldBeyond,
    Unused,
    CodeWithoutParameters,
    MemoryLoad,
    ByteChanged,
    BitTurned,
    ByteInserted,
    ByteLeftOut,
    CutShort,
    Nothing,
    NoLineFeed,
    TwoLineFeeds,
    LineFeedInside,
    TwoLines,
    CarriageReturn,
    Nul,
    Space,
    Plus,
    MinusZero,
    LeadingZero,
    ThousandDigits,
    Wrapping,
    NotADigit,
    MapShort,
    MapLong,
    MapDigit,
    LowerCase,
    NotHex,
    OddHex,
    QueueTooLong,
    QueueNotPaused,
    QueueEmpty,
}

/// Every kind, with its words.
pub const KINDS: [(Kind, &str); 42] = [
    (Kind::FieldChanged, "a field changed"),
    (Kind::FieldsSwapped, "two fields swapped"),
    (Kind::FieldLeftOut, "a field left out"),
    (Kind::FieldTwice, "a field twice"),
    (Kind::FieldEmpty, "a field empty"),
    (Kind::FieldAdded, "a field after the last"),
    (Kind::OneAbove, "one above a range"),
    (Kind::OneBelow, "one below a range"),
    (Kind::ModeChanged, "another mode, its numbers kept"),
    (Kind::ChoiceChanged, "a choice changed"),
    (Kind::HeldBeyond, "held motion beyond 254"),
    (Kind::Unused, "an unused field not 0"),
    (Kind::CodeWithoutParameters, "a code without parameters"),
    (Kind::MemoryLoad, "a memory load with other data to come"),
    (Kind::ByteChanged, "a byte changed"),
    (Kind::BitTurned, "a bit turned"),
    (Kind::ByteInserted, "a byte inserted"),
    (Kind::ByteLeftOut, "a byte left out"),
    (Kind::CutShort, "cut short"),
    (Kind::Nothing, "nothing at all, or nearly"),
    (Kind::NoLineFeed, "no line feed"),
    (Kind::TwoLineFeeds, "two line feeds"),
    (Kind::LineFeedInside, "a line feed inside"),
    (Kind::TwoLines, "two lines"),
    (Kind::CarriageReturn, "a carriage return"),
    (Kind::Nul, "a NUL byte"),
    (Kind::Space, "a space"),
    (Kind::Plus, "a plus sign"),
    (Kind::MinusZero, "a minus before 0"),
    (Kind::LeadingZero, "leading zeros"),
    (Kind::ThousandDigits, "a number of 1,000 digits or more"),
    (Kind::Wrapping, "a number that wraps round to a good one"),
    (Kind::NotADigit, "a byte beside the digits"),
    (Kind::MapShort, "a map of 113 digits"),
    (Kind::MapLong, "a map of 115 digits"),
    (Kind::MapDigit, "a map with another digit"),
    (Kind::LowerCase, "lower-case hex"),
    (Kind::NotHex, "a byte beside the hex digits"),
    (Kind::OddHex, "an odd number of hex digits"),
    (Kind::QueueTooLong, "a queue that is too long"),
    (Kind::QueueNotPaused, "a queue while not paused"),
    (Kind::QueueEmpty, "an empty queue field"),
];

/// The places of the map and the queue, from 0.
const MAP: usize = NUMBERS;
const QUEUE: usize = NUMBERS + 1;
/// The places of the mouse mode and of the joystick mode.
const MOUSE_MODE: usize = 0;
const JOYSTICK_MODE: usize = 12;
/// The place of the pause, and of what decides whether the mouse is live.
const PAUSED: usize = 22;
const CHOICES: [usize; 7] = [10, 11, 20, 21, PAUSED, 27, 28];
const HELD: [usize; 2] = [25, 26];
const CODE: usize = 46;
const COME: usize = 47;
const THIRD: usize = 50;
const DATA: usize = 54;

/// A line that is spoiled in this way.
pub fn spoiled(random: &mut Random, kind: Kind) -> Vec<u8> {
    let mut state = arbitrary::state(random);
    prepare(random, kind, &mut state);
    let line = line_of(&state);
    match kind {
        Kind::ByteChanged
        | Kind::BitTurned
        | Kind::ByteInserted
        | Kind::ByteLeftOut
        | Kind::CutShort
        | Kind::Nothing
        | Kind::NoLineFeed
        | Kind::TwoLineFeeds
        | Kind::LineFeedInside
        | Kind::TwoLines
        | Kind::CarriageReturn
        | Kind::Nul
        | Kind::Space => spoil_bytes(random, kind, line),
        _ => {
            let mut fields = fields_of(&line);
            spoil_fields(random, kind, &state, &mut fields);
            [&fields.join(&b'\t')[..], b"\n"].concat()
        }
    }
}

pub fn line_of(state: &State) -> Vec<u8> {
    let mut line = Vec::new();
    write(state, &mut line);
    line
}

/// Gives a state what this kind of spoiling needs.
fn prepare(random: &mut Random, kind: Kind, state: &mut State) {
    match kind {
        Kind::LowerCase | Kind::NotHex | Kind::OddHex | Kind::QueueNotPaused | Kind::QueueEmpty => {
            let length = 1 + random.below(8) as usize;
            state.paused = true;
            state.queue = arbitrary::queue(random, length);
            if kind == Kind::LowerCase {
                state.queue.clear();
                state.queue.append(&[0x1E, 0xAF], QUEUE_ROOM);
            }
        }
        Kind::QueueTooLong => {
            state.paused = true;
            state.queue = arbitrary::queue(random, QUEUE_ROOM);
        }
        _ => {}
    }
}

fn place_in(random: &mut Random, line: &[u8]) -> usize {
    random.below(line.len() as u64) as usize
}

fn spoil_bytes(random: &mut Random, kind: Kind, mut line: Vec<u8>) -> Vec<u8> {
    let place = place_in(random, &line);
    match kind {
        Kind::ByteChanged => line[place] = any_byte(random),
        Kind::BitTurned => line[place] ^= 1 << random.below(8),
        Kind::ByteInserted => line.insert(place, any_byte(random)),
        Kind::ByteLeftOut => drop(line.remove(place)),
        Kind::CutShort => {
            line.truncate(place);
            if random.one_in(2) {
                line.push(b'\n');
            }
        }
        Kind::Nothing => {
            let least: [&[u8]; 6] = [b"", b"\n", b"-", b"-\n", b"0\n", b"\t\n"];
            line = random.pick(&least).to_vec();
        }
        Kind::NoLineFeed => drop(line.pop()),
        Kind::TwoLineFeeds => line.push(b'\n'),
        Kind::LineFeedInside => put(random, &mut line, place, b'\n'),
        Kind::TwoLines => line.extend(line_of(&arbitrary::state(random))),
        Kind::CarriageReturn => {
            let last = line.len() - 1;
            let place = random.pick(&[last, last, last + 1, place]);
            line.insert(place, b'\r');
        }
        Kind::Nul => put(random, &mut line, place, 0),
        _ => put(random, &mut line, place, b' '),
    }
    line
}

/// Puts a byte in a place, in place of another or between two.
fn put(random: &mut Random, line: &mut Vec<u8>, place: usize, byte: u8) {
    match random.one_in(2) {
        true => line[place] = byte,
        false => line.insert(place, byte),
    }
}

/// A byte that a line may have, or any.
fn any_byte(random: &mut Random) -> u8 {
    match random.one_in(4) {
        true => random.byte(),
        false => random.pick(b"0123456789-\tABCDEF"),
    }
}

fn fields_of(line: &[u8]) -> Vec<Vec<u8>> {
    let line = line.strip_suffix(b"\n").unwrap_or(line);
    let fields = line.split(|&byte| byte == b'\t');
    fields.map(<[u8]>::to_vec).collect()
}

fn text(number: i32) -> Vec<u8> {
    number.to_string().into_bytes()
}

fn spoil_fields(random: &mut Random, kind: Kind, state: &State, fields: &mut Vec<Vec<u8>>) {
    let any = random.below(FIELDS as u64) as usize;
    let number = random.below(NUMBERS as u64) as usize;
    match kind {
        Kind::FieldChanged => fields[number] = text(any_number(random)),
        Kind::FieldsSwapped => fields.swap(number, random.below(NUMBERS as u64) as usize),
        Kind::FieldLeftOut => drop(fields.remove(any)),
        Kind::FieldTwice => fields.insert(any, fields[any].clone()),
        Kind::FieldEmpty => fields[any].clear(),
        Kind::FieldAdded => fields.push(random.pick(&[&b""[..], b"0", b"-"]).to_vec()),
        Kind::OneAbove => {
            let (number, above) = random.pick(&ranges(state).above());
            fields[number] = text(above);
        }
        Kind::OneBelow => {
            let (number, below) = random.pick(&ranges(state).below());
            fields[number] = text(below);
        }
        Kind::ModeChanged => {
            let (place, last) = random.pick(&[(MOUSE_MODE, 2), (JOYSTICK_MODE, 4)]);
            fields[place] = text(random.between(0, last));
        }
        Kind::ChoiceChanged => {
            let place = random.pick(&CHOICES);
            fields[place][0] ^= 1; // 0 and 1
        }
        Kind::HeldBeyond => {
            let far = random.pick(&[255, 256, 318, 1000, 2031, 2032, 2033]);
            fields[random.pick(&HELD)] = text(far * random.pick(&[1, -1]));
        }
        Kind::Unused => {
            let places = ranges(state).unused();
            fields[random.pick(&places)] = text(arbitrary::number(random, 1, 255));
        }
        Kind::CodeWithoutParameters => {
            let codes = arbitrary::codes_with_parameters();
            let others: Vec<i32> = (1..=256)
                .filter(|&code| !codes.iter().any(|&other| i32::from(other) == code))
                .collect();
            fields[CODE] = text(random.pick(&others));
        }
        Kind::MemoryLoad => {
            let third = random.pick(&[0, 0, 1, 2, 254, 255]);
            let data = random.pick(&[0, 0, 1, third, third + 1, 255]);
            fields[CODE] = text(MEMORY_LOAD.into());
            fields[COME] = text(random.pick(&[2, 3, 3, 3]));
            fields[THIRD] = text(third);
            fields[THIRD + 1..DATA].fill(b"0".to_vec());
            fields[DATA] = text(data);
        }
        Kind::MapShort => drop(fields[MAP].pop()),
        Kind::MapLong => fields[MAP].push(random.pick(b"01")),
        Kind::MapDigit => {
            let place = random.pick(&[0, COUNT - 1, number]);
            fields[MAP][place] = random.pick(b"/23789-A ");
        }
        Kind::LowerCase => fields[QUEUE].make_ascii_lowercase(),
        Kind::NotHex => {
            let place = random.below(fields[QUEUE].len() as u64) as usize;
            fields[QUEUE][place] = random.pick(b"/:@G`g-x");
        }
        Kind::OddHex => match random.one_in(2) {
            true => drop(fields[QUEUE].pop()),
            false => fields[QUEUE].push(random.pick(b"0F-")),
        },
        Kind::QueueTooLong => fields[QUEUE].extend(random.pick(&[&b"1E"[..], b"1", b"1E9E"])),
        Kind::QueueNotPaused => fields[PAUSED] = b"0".to_vec(),
        Kind::QueueEmpty => fields[QUEUE].clear(),
        _ => respell(random, kind, &mut fields[number]),
    }
}

/// Another spelling of a number.
fn respell(random: &mut Random, kind: Kind, field: &mut Vec<u8>) {
    match kind {
        Kind::Plus => field.insert(0, b'+'),
        Kind::MinusZero => *field = random.pick(&[&b"-0"[..], b"-0", b"-00", b"-"]).to_vec(),
        Kind::LeadingZero => {
            let sign = usize::from(field[0] == b'-');
            let zeros = random.pick(&[1, 1, 2, 30]);
            field.splice(sign..sign, vec![b'0'; zeros]);
        }
        Kind::NotADigit => {
            let last = field.len() - 1;
            let place = random.pick(&[0, last]);
            field[place] = random.pick(b"/:;.,AOol\xB2");
        }
        Kind::ThousandDigits => {
            let digit = random.pick(b"0159");
            let last = field.pop().unwrap_or(b'0');
            *field = vec![digit; random.pick(&[999, 999, 999, 999, 999, 7000])];
            field.push(last);
        }
        _ => {
            let wraps = [1_u128 << 8, 1 << 16, 1 << 31, 1 << 32, 1 << 63, 1 << 64];
            let number: i64 = String::from_utf8_lossy(field).parse().unwrap_or(0);
            let wrapped = random.pick(&wraps) + u128::from(number.unsigned_abs());
            *field = wrapped.to_string().into_bytes();
        }
    }
}

/// A number that some field may have, or nearly.
fn any_number(random: &mut Random) -> i32 {
    const EDGES: [i32; 24] = [
        -2033, -2032, -255, -254, -1, 0, 1, 2, 4, 5, 7, 8, 12, 15, 16, 31, 59, 99, 127, 128, 143,
        255, 2551, 65_535,
    ];
    match random.below(4) {
        0 => random.between(-300, 300),
        1 => random.between(0, 40),
        _ => random.pick(&EDGES),
    }
}
