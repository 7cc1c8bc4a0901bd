//! Sessions with the length of their buffer, and their expected outputs: those
//! of the papers, resumes with every length of buffer, bad input in every mode,
//! sentences of document 01, questions, the map of keys, saved lines, the months,
//! the right button with the mouse off, long moves, and looks.

use crate::keys::{CODES, COUNT};
use crate::limits::{BUFFER, HELD_LIMIT, QUEUE_ROOM};
use crate::papers::{
    fire, keys, lines, looks, months, moves, papers, questions, saved, sentences, Paper,
};
use crate::program::{Format, Player};
use crate::rules::Rules;

/// Sessions of one kind, in order.
pub struct Group {
    /// What they are, in plain words.
    pub about: String,
    pub sessions: Vec<Session>,
}

pub struct Session {
    pub title: String,
    pub lent: usize,
    pub lines: Vec<String>,
    /// The output lines.
    pub output: String,
}

const FROM_PAPERS: &str = "\
The papers' own sessions. Every output line is stated by the papers. (Reading 9 \
stands there by document 01 alone, with F0 in its line 4: A1 adds to it the \
break of the key that is down. Sessions 3 and 4 are as A6 has them. Reading 54 \
stands there by document 01 alone, with F87F80F841C0 in its line 5: by A6 both \
packets are F860A0. Reading 65 stands there with a later request; without it its \
bytes are the same.)";

const SHORT_BUFFERS: &str = "\
A resume with a buffer of every length from 0 to 20. Paused, three keys go to \
the queue and three motions of 64 -64 are held; then 88 asks. Due are the \
queue (3 bytes), two packets (6) and the reply (8): 17 bytes, so a shorter \
buffer gives 4. Then 11: if 88 was refused, its 9 bytes are due, and a buffer \
of less than 9 gives 4 again. Last a key, which goes out unless still paused.";

const BAD_INPUT: &str = "\
Bad input, in each mouse mode with each joystick mode, not paused and paused. \
Each number of each event is put outside its range, and gives 1. Before it \
motion is held and, in fire monitoring, three samples are taken; after it come \
motion, reports and inquiries that show that nothing changed: the packets, \
pairs or coordinates of motion before and after, the sticks, the samples, the \
modes. (In the paused sessions 13 stands before the bad event and 11 after it.)";

const SENTENCES: &str = "\
Sentences of document 01 that no session above shows, or only in part. A title \
is the sentence or a part of it; every output line is worked out by hand from \
document 01, as request A1 amends its reset. Some clearing shows in no output, \
because the way back clears too: held motion by 0x12, coordinates by 0x08 and \
0x0A, repeat counts by 0x14, 0x15, 0x17 and 0x18, ticks and samples by leaving \
a monitoring mode. There the model's own tests look at the state.";

const QUESTIONS: &str = "\
Questions about the queue. Every output line is worked out by hand.";

const KEYS: &str = "\
Request A1, which keys are down: first its readings, of which the papers state \
the outputs of 82 and 83, and of 113 that the break comes without its make; then \
its sentences and document 01's refusals, with `lamp` asked in most. Every other \
output line is worked out by hand.";

const ALL_KEYS: &str = "\
A reset with all 114 keys down. The mouse is switched off, the keys are pressed, \
highest first, and then 80 01 comes: due are F0 and 114 breaks, 115 bytes, so a \
shorter buffer gives 4 and the reset stays half received. Key 72 is released \
and 01 comes again: where the reset waits for it, 114 bytes are due. The same \
with key 01: 113 bytes. Then a whole 80 01, but to a reset that still waits its \
80 is another byte. Last, 92 tells whether the mouse is on again.";

const SAVED: &str = "\
Request A2, a saved state as text: first the readings, of which the papers state \
84 to 87 and what 64 to 67 show of a line; then its sentences and its refusals. \
Every other output line is worked out by hand. In tests/model/src/saved.txt each \
line that is loaded or saved stands as an edit of power-up's: [23=1,57=1E] is \
power-up's line with field 23 as 1 and field 57 as 1E.";

const MONTHS: &str = "\
Request A3, the lengths of the months: the clock is set to day 31 of each month of \
a common year and of a leap year, a second before midnight. Its report shows the \
month's last day and, after 100 ticks, the first day of the next month, so that no \
length can be shorter or longer. Every report is written from the calendar.";

const FIRE: &str = "\
Request A4, the right button with the mouse off: first its readings, of which the \
papers state the outputs of 88 and 89, and of 114 that the trigger stays set and \
what lets it go; then its sentences and its refusals. Every other output line is \
worked out by hand.";

const MOVES: &str = "\
Request A6, smooth long moves: first its reading, of which the papers state the \
output; then its sentences, document 01's refusals of a long move, and last levels \
and actions of the buttons. Sessions 3 and 4 above are its own too. Every other \
output line is worked out by hand.";

const LOOKS: &str = "\
Request A7, look without clearing: first the readings, of which the papers state the \
output of the first; then the look, its refusals, the clearing, 0x0D and the buttons; \
then more of each: what a refused look leaves, a full queue, what empties the latches, \
and the ends of numbers and buffers; and last the session of docs/ANSWERS.md. \
The questions `look` and `clear` are the two that it splits the interrogation into. \
Every other output line is worked out by hand.";

/// All sessions.
pub fn groups() -> Vec<Group> {
    vec![
        group(FROM_PAPERS, papers()),
        group(SHORT_BUFFERS, (0..=20).map(short_buffer).collect()),
        group(
            &about_longest_resume(),
            [BUFFER, BUFFER - 1].map(longest_resume).to_vec(),
        ),
        Group {
            about: BAD_INPUT.into(),
            sessions: bad_input(),
        },
        group(SENTENCES, sentences()),
        group(QUESTIONS, questions()),
        group(KEYS, keys()),
        group(
            ALL_KEYS,
            (COUNT - 2..=COUNT + 2).map(all_keys_down).collect(),
        ),
        group(SAVED, saved()),
        group(MONTHS, months()),
        group(FIRE, fire()),
        group(MOVES, moves()),
        group(LOOKS, looks()),
    ]
}

/// Sessions whose whole output is stated.
fn group(about: &str, papers: Vec<Paper>) -> Group {
    let sessions = papers.into_iter().map(|paper| Session {
        output: paper.output_text(),
        title: paper.title,
        lent: paper.lent,
        lines: paper.lines,
    });
    Group {
        about: about.into(),
        sessions: sessions.collect(),
    }
}

/// The output of the model for a session.
pub fn played(lent: usize, lines: &[String]) -> String {
    let mut player = Player::new(Format::Vectors, Rules::DOCUMENT, lent);
    let mut out = Vec::new();
    for line in lines {
        player.play(line.as_bytes(), &mut out);
    }
    String::from_utf8(out).expect("text")
}

fn short_buffer(lent: usize) -> Paper {
    let session = "13; K 1E 1; K 1F 1; K 1E 0; M 64 -64 *3; 88; 11; K 1E 1";
    let output = match lent {
        0..=8 => "8:(4) 9:(4)",
        9..=16 => "8:(4) 9:1E1F9EF860A0F860A0 10:1E",
        _ => "8:1E1F9EF860A0F860A0F608000000000000 10:1E",
    };
    Paper::new(&format!("buffer {lent}"), lent, session, output)
}

fn about_longest_resume() -> String {
    format!(
        "The most that is ever due: mouse keycode mode with deltas 1, paused, {QUEUE_ROOM} keys, \
         motion held to {} on both axes, then 88: {} bytes. One byte less of \
         buffer gives 4, and 11 then writes the {} bytes before the reply.",
        with_comma(HELD_LIMIT as usize),
        with_comma(BUFFER),
        with_comma(BUFFER - 8),
    )
}

/// A number of four to six digits as the papers write it.
fn with_comma(number: usize) -> String {
    format!("{},{:03}", number / 1000, number % 1000)
}

fn longest_resume(lent: usize) -> Paper {
    let (whole, last) = (HELD_LIMIT / 64, HELD_LIMIT % 64);
    let held = format!("M 64 64 *{whole}; M {last} {last}");
    let session = format!("0A 01 01; 13; K 1E 1 *{QUEUE_ROOM}; {held}; 88; 11");
    let steps = HELD_LIMIT as usize;
    let pairs = ["4DCD".repeat(steps), "50D0".repeat(steps)].concat();
    let resumed = ["1E".repeat(QUEUE_ROOM), pairs].concat();
    let last = lines(&session).len();
    let output = if lent < BUFFER {
        format!("{}:(4) {last}:{resumed}", last - 1)
    } else {
        format!("{}:{resumed}F60A010100000000", last - 1)
    };
    Paper::new(&format!("buffer {lent}"), lent, &session, &output)
}

fn all_keys_down(lent: usize) -> Paper {
    let presses: Vec<String> = CODES.rev().map(|code| format!("K {code:02X} 1")).collect();
    let releases = "K 72 0; ? lamp; 01; ? lamp; K 01 0; ? lamp; 01";
    let session = format!(
        "12; {}; ? lamp; 80 01; ? lamp; {releases}; 80 01; ? lamp; 92",
        presses.join("; ")
    );
    let makes = (2..).zip(CODES.rev());
    let makes: String = makes
        .map(|(line, code)| format!("{line}:{code:02X} "))
        .collect();
    let told = "116:72 119:72 120:F2 121:71 123:71 124:81 125:70 129:70";
    let (all, but_last, but_ends) = (named(0x81, 0xF2), named(0x81, 0xF1), named(0x82, 0xF1));
    let (on, off) = ("130:F600000000000000", "130:F612000000000000");
    let resets = match lent {
        115.. => format!("118:{all} 128:{but_ends} {on}"),
        114 => format!("118:(4) 122:{but_last} 128:{but_ends} {on}"),
        113 => format!("118:(4) 122:(4) 126:{but_ends} 128:{but_ends} {on}"),
        _ => format!("118:(4) 122:(4) 126:(4) {off}"),
    };
    let output = format!("{makes}{told} {resets}");
    Paper::new(&format!("buffer {lent}"), lent, &session, &output)
}

/// What a reset sends when the keys with these breaks are down.
fn named(first: u8, last: u8) -> String {
    let breaks = (first..=last).map(|code| format!("{code:02X}"));
    ["F0".into()].into_iter().chain(breaks).collect()
}

/// Each number of each event outside its range.
pub const BAD_EVENTS: [&str; 22] = [
    "K 00 1",
    "K 00 0",
    "K 73 1",
    "K 73 0",
    "K FF 1",
    "M -65 0",
    "M 65 0",
    "M 0 -65",
    "M 0 65",
    "M 9999 0",
    "M 0 -9999",
    "S -1 0 0",
    "S 2 0 0",
    "S 0 -1 0",
    "S 0 16 0",
    "S 1 16 1",
    "S 0 0 -1",
    "S 1 0 2",
    "F -1",
    "F 2",
    "F 9999",
    "F -9999",
];

/// A mouse mode, and what shows its state.
const MOUSE_MODES: [(&str, &str, &str); 3] = [
    ("relative", "08; 0B 0A 0A", "L 1; L 0"),
    ("absolute", "09 01 3F 00 C7; 0C 0A 0A", "0D"),
    ("keycode", "0A 0A 0A", "L 1; L 0"),
];

/// A joystick mode, what comes before a bad event, and what shows its state.
const JOYSTICK_MODES: [(&str, &str, &str, &str); 5] = [
    ("event", "14", "M 5 5", "M 5 5; 16; 07 00; 88 94"),
    ("interrogation", "15", "M 5 5", "M 5 5; 16; 07 00; 88 94"),
    ("monitoring", "17 01", "T", "M 5 5; T; 1C"),
    ("fire monitoring", "18", "F 1 *3", "M 5 5; F 0 *5; 1C"),
    (
        "keycode",
        "19 01 01 01 01 01 01",
        "M 5 5",
        "M 5 5; S 0 5 1; S 1 10 1; 88 94",
    ),
];

/// The sessions with bad input.
pub fn bad_input() -> Vec<Session> {
    let mut sessions = Vec::new();
    for (mouse, enter_mouse, show_mouse) in MOUSE_MODES {
        for (sticks, enter_sticks, before, show_sticks) in JOYSTICK_MODES {
            for paused in [false, true] {
                let enter = format!("{enter_mouse}; {enter_sticks}; S 0 5 1; S 1 10 1; 07 00");
                let show = format!("{show_sticks}; {show_mouse}");
                let lines = bad_input_lines(&enter, before, &show, paused);
                sessions.push(Session {
                    title: format!(
                        "mouse {mouse}, joysticks {sticks}, {}",
                        if paused { "paused" } else { "not paused" }
                    ),
                    lent: BUFFER,
                    output: played(BUFFER, &lines),
                    lines,
                });
            }
        }
    }
    sessions
}

fn bad_input_lines(enter: &str, before: &str, show: &str, paused: bool) -> Vec<String> {
    let mut session = String::from(enter);
    for event in BAD_EVENTS {
        let event = if paused {
            format!("13; {event}; 11")
        } else {
            event.into()
        };
        session += &format!("; {before}; {event}; {show}");
    }
    lines(&session)
}
