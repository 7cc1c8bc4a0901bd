//! Saved lines as edits of power-up's: `[23=1,57=1E]` is power-up's line with
//! field 23 as 1 and field 57 as 1E, and `[]` is power-up's line.
//!
//! `end=` stands for what ends the line in place of its line feed, and
//! `without=5` leaves field 5 out. In a value `1E*3` is 1E three times and, in
//! the map and the queue, `1*2+0*112` joins two such parts; `\t`, `\n`, `\r` and
//! `\0` are bytes.

use super::repeated;
use crate::keys::COUNT;
use crate::saved::{FIELDS, NUMBERS};

/// "Power-up: relative, action 0, thresholds 1, scales 1, origin top, mouse on,
/// event mode, joysticks on, port 0 mouse, clock 00-01-01 00:00:00 (house), all
/// else zero."
const POWER_UP: [&str; 5] = [
    "0 0 0 0 0 0 1 1 1 1 0 1",           // 1 to 12: the mouse's settings
    "0 0 0 0 0 0 0 0 1 0",               // 13 to 22: the joysticks', port 0
    "0 0 0 0 0 0 0 0 0 0 0 0 0 0 0 0 0", // 23 to 39: pause to samples
    "0 1 1 0 0 0 0",                     // 40 to 46: the clock
    "0 0 0 0 0 0 0 0 0",                 // 47 to 55: no command
];

/// The line that a list of edits makes, without its brackets.
pub fn edited(edits: &str) -> Vec<u8> {
    let numbers = POWER_UP.join(" ");
    let mut fields: Vec<String> = numbers.split(' ').map(String::from).collect();
    assert_eq!(fields.len(), NUMBERS);
    fields.extend(["0".repeat(COUNT), "-".into()]);
    let (mut end, mut without) = (String::from("\n"), None);
    for edit in edits.split(',').filter(|edit| !edit.is_empty()) {
        let (what, value) = edit.split_once('=').expect("an edit");
        match what {
            "end" => end = bytes(value),
            "without" => without = Some(place(value)),
            field => fields[place(field)] = field_text(field, value),
        }
    }
    if let Some(place) = without {
        fields.remove(place);
    }
    (fields.join("\t") + &end).into_bytes()
}

/// The place of a field that is numbered from 1.
fn place(number: &str) -> usize {
    let number: usize = number.parse().expect("a field's number");
    assert!((1..=FIELDS).contains(&number));
    number - 1
}

fn field_text(field: &str, value: &str) -> String {
    match place(field) < NUMBERS {
        true => bytes(&repeated(value)),
        false => bytes(&value.split('+').map(repeated).collect::<String>()),
    }
}

fn bytes(text: &str) -> String {
    let escapes = [("\\t", "\t"), ("\\n", "\n"), ("\\r", "\r"), ("\\0", "\0")];
    let replace = |text: String, (escape, byte)| text.replace(escape, byte);
    escapes.into_iter().fold(text.into(), replace)
}
