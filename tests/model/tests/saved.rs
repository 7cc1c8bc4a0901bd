//! Request A2: "A saved state as text."

use model::arbitrary;
use model::clock::Clock;
use model::command::Command;
use model::controller::{step, Input};
use model::generator::session;
use model::joysticks::Joysticks;
use model::keys::{Keys, CODES, COUNT};
use model::limits::{BUFFER, QUEUE_ROOM};
use model::mouse::{Button, Mouse};
use model::papers::{edited, lines};
use model::program::{resume, Format, Player};
use model::random::Random;
use model::rules::Rules;
use model::saved::{self, FIELDS, LONGEST, SHORTEST};
use model::state::{JoystickMode, MouseMode, Queue, Role, State, Velocity};
use model::text::push_hex;

fn power_up() -> State {
    State::power_up(Rules::DOCUMENT)
}

fn written(state: &State) -> Vec<u8> {
    let mut line = Vec::new();
    saved::write(state, &mut line);
    line
}

fn read(line: &[u8]) -> Option<State> {
    saved::read(line, Rules::DOCUMENT)
}

/// Whether power-up's line with these edits is the line of a state.
fn is_read(edits: &str) -> bool {
    read(&edited(edits)).is_some()
}

/// The state after a session.
fn after(session: &str) -> State {
    let mut player = Player::new(Format::Vectors, Rules::DOCUMENT, BUFFER);
    for line in lines(session) {
        player.play(line.as_bytes(), &mut Vec::new());
    }
    player.state
}

/// A field of a state's line, numbered from 1.
fn field(state: &State, number: usize) -> String {
    let line = String::from_utf8(written(state)).expect("text");
    let fields: Vec<&str> = line.trim_end_matches('\n').split('\t').collect();
    assert_eq!(fields.len(), FIELDS);
    fields[number - 1].into()
}

/// "Power-up: relative, action 0, thresholds 1, scales 1, origin top, mouse on,
/// event mode, joysticks on, port 0 mouse, clock 00-01-01 00:00:00 (house), all
/// else zero."
#[test]
fn the_line_of_power_up() {
    let line = "0\t0\t0\t0\t0\t0\t1\t1\t1\t1\t0\t1\t0\t0\t0\t0\t0\t0\t0\t0\t1\t0\t0\t0\t0\t0\t0\t0\t0\t0\t\
                0\t0\t0\t0\t0\t0\t0\t0\t0\t0\t1\t1\t0\t0\t0\t0\t0\t0\t0\t0\t0\t0\t0\t0\t0\t\
                00000000000000000000000000000000000000000000000000000000000000000000000000000000000000\
                0000000000000000000000000000\t-\n";
    assert_eq!(String::from_utf8(written(&power_up())).unwrap(), line);
    assert_eq!(edited(""), line.as_bytes());
    assert_eq!(read(line.as_bytes()), Some(power_up()));
}

fn every_number_its_own() -> State {
    let mut mouse = Mouse {
        mode: MouseMode::Absolute {
            maximum: [319, 199],
        },
        action: 3,
        threshold: [5, 6],
        scale: [7, 8],
        origin_bottom: true,
        on: false,
        coordinates: [318, 198],
        held: [-254, 12],
        latches: 11,
        ..Mouse::POWER_UP
    };
    mouse.toggle(Button::Left);
    let mut state = power_up();
    state.mouse = mouse;
    state.joysticks = Joysticks {
        mode: JoystickMode::Keycode(Velocity {
            breakpoint: [21, 22],
            before: [23, 24],
            after: [25, 26],
        }),
        on: false,
        sticks: [129, 15],
        age: [2551, 31],
        wait: [32, 33],
        ..Joysticks::POWER_UP
    };
    state.port0 = Role::Joystick;
    state.paused = true;
    state.clock = Clock {
        year: 84,
        month: 2,
        day: 29,
        hour: 23,
        minute: 58,
        second: 57,
        hundredth: 56,
    };
    state.command = Command::half_received(0x20, 3, [18, 52, 5, 0, 0, 0], 4);
    state.keys.follow(1, true);
    state.keys.follow(0x72, true);
    state.queue.append(&[0x1E, 0x9E, 0x0A], QUEUE_ROOM);
    state
}

/// "in the order of document 01's state list, except that the map [...] and the
/// queue [...] come last"
#[test]
fn the_fields_of_a_state_made_by_hand() {
    let numbers =
        "1 319 199 0 0 3 5 6 7 8 1 0 4 0 21 22 23 24 25 26 0 1 1 318 198 -254 12 1 0 11 129 15 \
                   2551 32 31 33 0 0 0 84 2 29 23 58 57 56 32 3 18 52 5 0 0 0 4";
    let map = format!("1{}1", "0".repeat(COUNT - 2));
    let line = format!("{} {map} 1E9E0A\n", numbers).replace(' ', "\t");
    assert_eq!(
        String::from_utf8(written(&every_number_its_own())).unwrap(),
        line
    );
    assert_eq!(read(line.as_bytes()), Some(every_number_its_own()));
}

/// "samples their count and then their bits as one number, last in bit 0"
#[test]
fn the_other_modes_and_their_numbers() {
    let cases = [
        ("0A 04 02", "1=2,4=4,5=2"),
        ("09 01 3F 00 C7", "1=1,2=319,3=199"),
        ("15", "13=1,22=1"),
        ("17 05; T *3", "13=2,14=5,22=1,37=3,46=3"),
        ("17 00; T *3", "13=2,22=1,46=3"),
        ("18; F 1; F 1; F 0", "13=3,22=1,38=3,39=6"),
        ("18; F 0; F 0; F 1", "13=3,22=1,38=3,39=1"),
        (
            "19 01 02 03 04 05 06",
            "13=4,15=1,16=2,17=3,18=4,19=5,20=6,22=1",
        ),
        ("0F; 12; 1A; 13", "11=1,12=0,21=0,22=1,23=1"),
        (
            "0B 00 FF; M 0 -64; 13; M 0 -64; M 0 -64",
            "7=0,8=255,23=1,27=-192",
        ),
        ("L 1; S 0 1 1; S 1 8 0", "28=1,31=129,32=8"),
        ("R 1", "29=1"),
        (
            "09 00 05 00 06; L 1; L 0; R 1; M 9 2",
            "1=1,2=5,3=6,24=5,25=2,29=1,30=13",
        ),
        (
            "19 00 00 00 00 00 00; S 0 9 0; T *7; S 0 1 0; T",
            "13=4,22=1,31=1,35=8,36=8,46=8",
        ),
        (
            "19 00 00 00 00 00 01; S 0 8 0; T *2; S 0 9 0; T *10",
            "13=4,20=1,22=1,31=9,33=12,34=12,35=10,46=12",
        ),
        (
            "1B 99 12 31 23 59 58; T",
            "40=99,41=12,42=31,43=23,44=59,45=58,46=1",
        ),
        ("13; K 1E 1; K 01 1; K 1E 0", "23=1,56=1+0*113,57=1E019E"),
        ("K 72 1", "56=0*113+1"),
        ("09 01 02 FF", "47=9,48=3,49=1,50=2,51=255"),
        ("80", "47=128"),
        ("20 12 34", "47=32,48=2,49=18,50=52"),
        ("20 00 00 00", ""),
        ("20 00 00 FF", "47=32,48=3,51=255,55=255"),
    ];
    for (session, edits) in cases {
        let line = written(&after(session));
        assert_eq!(line, edited(edits), "{session}");
        assert_eq!(read(&line), Some(after(session)), "{session}");
    }
}

/// "Upper case, nothing between, as in the text program; a line with lower case
/// is refused with 5."
#[test]
fn reading_84() {
    assert!(!is_read("23=1,57=1e"));
    assert!(is_read("23=1,57=1E"));
}

/// "Count stays 3, the two address bytes and the third are kept, data still to
/// come is 1 to the third byte."
#[test]
fn reading_85() {
    let state = after("20 12 34 05 AA");
    let fields = [47, 48, 49, 50, 51, 52, 55].map(|number| field(&state, number));
    assert_eq!(fields, ["32", "3", "18", "52", "5", "0", "4"]);
    let kept = "47=32,48=3,49=18,50=52,51=5";
    for (data, good) in [(0, false), (1, true), (5, true), (6, false)] {
        assert_eq!(is_read(&format!("{kept},55={data}")), good);
    }
    // "Before the third byte the data field is 0. No command: code 0 and all 0."
    assert!(!is_read("47=32,48=2,49=18,50=52,55=1") && is_read("47=32,48=2,49=18,50=52"));
    assert!(!is_read("48=1") && !is_read("49=1") && !is_read("54=1") && !is_read("55=1"));
}

/// "A line without line feed, with two, or with CR is refused with 5."
#[test]
fn reading_86() {
    for end in ["", "\\n\\n", "\\r\\n", "\\r", "\\n\\r"] {
        assert!(!is_read(&format!("end={end}")), "{end}");
    }
    assert!(is_read("end=\\n"));
}

/// "Everything within the ranges reads"
#[test]
fn reading_87() {
    assert!(is_read("12=0,26=254,30=15"));
    // "joysticks off with monitoring, latches in relative mode, held 254 with
    // threshold 1 unpaused, any queue bytes while paused, mouse off with motion
    // held"
    for edits in [
        "13=2,21=0",
        "30=15",
        "26=254",
        "23=1,57=00FFF680",
        "12=0,27=-254",
    ] {
        assert!(is_read(edits), "{edits}");
    }
}

/// Readings 22, 64, 65, 66 and 67 as their lines tell them.
#[test]
fn readings_of_document_01_that_a_line_shows() {
    let mut refused = Player::new(Format::Vectors, Rules::DOCUMENT, 1);
    for line in lines("17 01; T *3") {
        refused.play(line.as_bytes(), &mut Vec::new());
    }
    assert_eq!(field(&refused.state, 46), "0");
    let mut still = read(&edited("13=4,19=1,22=1,34=10")).unwrap();
    assert_eq!(
        step(&mut still, Input::Tick, BUFFER, &mut Vec::new()),
        Ok(())
    );
    assert_eq!(field(&still, 34), "10");
    let counts = after("19 00 00 00 00 01 01; S 0 8 0; T *5; 1A; S 0 4 0; T *10");
    assert_eq!([field(&counts, 33), field(&counts, 34)], ["5", "5"]);
    assert!(is_read("33=5"));
    let mut off = read(&edited("13=2,21=0")).unwrap();
    let mut out = Vec::new();
    assert_eq!(step(&mut off, Input::Tick, BUFFER, &mut out), Ok(()));
    assert_eq!(out, [0, 0]);
}

/// The states that have the shortest and the longest line.
#[test]
fn the_shortest_and_the_longest_line() {
    assert_eq!((SHORTEST, LONGEST), (227, 303 + 2 * QUEUE_ROOM));
    assert_eq!(written(&power_up()).len(), SHORTEST);
    let longest = format!(
        "1=1,2=65535,3=65535,6=4,7=255,8=255,9=255,10=255,13=4,15=255,16=255,17=255,18=255,19=255,\
         20=255,23=1,24=65535,25=65535,26=-254,27=-254,30=15,31=143,32=143,33=2551,34=2551,35=2551,\
         36=2551,40=99,41=12,42=31,43=23,44=59,45=59,46=99,47=27,48=5,49=255,50=255,51=255,52=255,\
         53=255,57=FF*{QUEUE_ROOM}"
    );
    let state = read(&edited(&longest)).expect("a state");
    assert_eq!(written(&state), edited(&longest));
    assert_eq!(written(&state).len(), LONGEST);
    let mut random = Random::new(1);
    for _ in 0..100_000 {
        let length = written(&arbitrary::state(&mut random)).len();
        assert!((SHORTEST..=LONGEST).contains(&length));
    }
}

/// "Writing and reading undo each other"
#[test]
fn writing_and_reading_undo_each_other() {
    let mut random = Random::new(2);
    for _ in 0..50_000 {
        let state = arbitrary::state(&mut random);
        assert_eq!(read(&written(&state)), Some(state));
    }
    let mut player = Player::new(Format::Text, Rules::DOCUMENT, BUFFER);
    for line in session(3, 100_000, Format::Text).split(|&byte| byte == b'\n') {
        player.play(line, &mut Vec::new());
        assert_eq!(read(&written(&player.state)), Some(player.state));
    }
}

/// Every byte of a line made every other byte, left out, or put in once more: a
/// line that is read is the one that its state writes.
#[test]
fn what_is_read_is_what_is_written() {
    let mut random = Random::new(3);
    let (mut good, mut bad) = (0, 0);
    for _ in 0..6 {
        let line = written(&arbitrary::state(&mut random));
        let mut look_at = |line: &[u8]| match read(line) {
            Some(state) => {
                assert_eq!(written(&state), line);
                good += 1;
            }
            None => bad += 1,
        };
        for place in 0..line.len() {
            for byte in 0..=u8::MAX {
                let mut changed = line.clone();
                changed[place] = byte;
                look_at(&changed);
            }
            look_at(&[&line[..place], &line[place + 1..]].concat());
            look_at(&[&line[..place], &line[place..=place], &line[place..]].concat());
        }
    }
    assert!(good > 2_000 && bad > 100_000, "{good}, {bad}");
}

/// The numbers that a field takes in power-up's line with some edits: all of
/// those from -2,100 to 2,600 and about 65,536 are tried.
fn taken(edits: &str, field: usize) -> Vec<i32> {
    let line = edited(&format!("{edits},{field}=@"));
    let place = line.iter().position(|&byte| byte == b'@').expect("a field");
    let with = |number: &i32| {
        let number = number.to_string();
        [&line[..place], number.as_bytes(), &line[place + 1..]].concat()
    };
    let tried = (-2100..2600).chain(65_530..65_540);
    tried
        .filter(|number| read(&with(number)).is_some())
        .collect()
}

fn from_to(first: i32, last: i32) -> Vec<i32> {
    (first..=last).collect()
}

fn up_to(last: i32) -> Vec<i32> {
    from_to(0, last)
}

/// "Ranges: a setting's numbers are those that its command's bytes can carry"
#[test]
fn each_field_takes_its_range() {
    for field in [11, 12, 21, 22, 23, 28, 29] {
        assert_eq!(taken("", field), up_to(1), "{field}");
    }
    for field in 7..=10 {
        assert_eq!(taken("", field), up_to(255), "{field}");
    }
    for field in 33..=36 {
        assert_eq!(taken("", field), up_to(2551), "{field}");
    }
    for (field, last) in [(1, 2), (6, 4), (13, 4), (30, 15)] {
        assert_eq!(taken("", field), up_to(last), "{field}");
    }
    for field in [31, 32] {
        assert_eq!(taken("", field), [up_to(15), from_to(128, 143)].concat());
    }
}

/// "Unused fields are written as 0."
#[test]
fn numbers_of_other_modes_are_0() {
    for mode in ["1=0", "1=1,2=9,3=9", "1=2,4=9,5=9"] {
        let used = match mode {
            "1=0" => 0..=0,
            "1=1,2=9,3=9" => 2..=3,
            _ => 4..=5,
        };
        for field in (2..=5).filter(|field| !used.contains(field)) {
            assert_eq!(taken(mode, field), [0], "{mode}, {field}");
        }
    }
    for (mode, used) in [
        ("13=0", 0..=0),
        ("13=1", 0..=0),
        ("13=2,14=9", 14..=14),
        ("13=3", 0..=0),
        ("13=4,15=9,20=9", 15..=20),
    ] {
        for field in 14..=20 {
            let last = if used.contains(&field) { 255 } else { 0 };
            assert_eq!(taken(mode, field), up_to(last), "{mode}, {field}");
        }
    }
}

/// "coordinates are 0 outside absolute mode"; "Coordinates never pass 0 or the
/// maximum"
#[test]
fn coordinates_keep_to_the_maximum() {
    for mode in ["1=0", "1=2,4=3,5=3", "1=1"] {
        assert_eq!(taken(mode, 24), [0]);
        assert_eq!(taken(mode, 25), [0]);
    }
    let whole = [up_to(2599), from_to(65_530, 65_535)].concat();
    for field in [2, 3] {
        assert_eq!(taken("1=1", field), whole);
    }
    assert_eq!(taken("1=1,2=320,3=200", 24), up_to(320));
    assert_eq!(taken("1=1,2=320,3=200", 25), up_to(200));
    assert_eq!(taken("1=1,2=65535,3=65535", 24), whole);
    // A maximum below the coordinate is none.
    assert_eq!(
        taken("1=1,3=9,24=2590", 2),
        [from_to(2590, 2599), from_to(65_530, 65_535)].concat()
    );
}

/// "held motion is -254 to 254, and beyond that, to 2,032 either way, only while
/// paused with the mouse live in relative or keycode mode"
#[test]
fn held_motion_keeps_to_its_limits() {
    let far = [
        "23=1",
        "23=1,1=2",
        "23=1,13=1",
        "23=1,13=4",
        "23=1,21=0",
        "23=1,7=255,6=4",
    ];
    let near = [
        "23=0",
        "23=0,1=2",
        "23=0,1=1",
        "23=1,1=1",
        "23=1,12=0",
        "23=1,22=1",
        "23=1,13=2",
        "23=1,13=3",
        "23=1,1=2,12=0",
    ];
    for field in [26, 27] {
        for edits in far {
            assert_eq!(taken(edits, field), from_to(-2032, 2032), "{edits}");
        }
        for edits in near {
            assert_eq!(taken(edits, field), from_to(-254, 254), "{edits}");
        }
    }
}

/// "monitoring ticks (below the rate as it acts), samples (0 to 7 of them)";
/// "monitoring ticks and samples are 0 outside their mode"
#[test]
fn ticks_and_samples_keep_to_their_mode() {
    for (rate, last) in [(0, 0), (1, 0), (2, 1), (255, 254)] {
        assert_eq!(taken(&format!("13=2,14={rate}"), 37), up_to(last));
    }
    assert_eq!(taken("13=3", 38), up_to(7));
    for count in 0..=7 {
        let bits = taken(&format!("13=3,38={count}"), 39);
        assert_eq!(bits, up_to((1 << count) - 1));
    }
    for mode in [0, 1, 3, 4] {
        assert_eq!(taken(&format!("13={mode}"), 37), [0]);
    }
    for mode in [0, 1, 2, 4] {
        assert_eq!(taken(&format!("13={mode}"), 38), [0]);
        assert_eq!(taken(&format!("13={mode}"), 39), [0]);
    }
}

/// "the clock shows a date and time that exist"
#[test]
fn the_clock_shows_a_date_and_time_that_exist() {
    for (field, first, last) in [
        (40, 0, 99),
        (41, 1, 12),
        (43, 0, 23),
        (44, 0, 59),
        (45, 0, 59),
        (46, 0, 99),
    ] {
        assert_eq!(taken("", field), from_to(first, last), "{field}");
    }
    let common = [31, 28, 31, 30, 31, 30, 31, 31, 30, 31, 30, 31];
    for year in 0..=99 {
        for (month, days) in (1..).zip(common) {
            // "February has 29 days when the year divides by 4."
            let last = days + i32::from(month == 2 && year % 4 == 0);
            for (day, good) in [(0, false), (1, true), (last, true), (last + 1, false)] {
                let edits = format!("40={year},41={month},42={day}");
                assert_eq!(is_read(&edits), good, "{edits}");
            }
        }
    }
}

/// "a half-received command lacks at least one byte"
#[test]
fn a_half_received_command_lacks_a_byte() {
    let parameters = [
        (0x07, 1),
        (0x09, 4),
        (0x0A, 2),
        (0x0B, 2),
        (0x0C, 2),
        (0x0E, 5),
        (0x17, 1),
        (0x19, 6),
        (0x1B, 6),
        (0x20, 3),
        (0x21, 2),
        (0x22, 2),
        (0x80, 1),
    ];
    let codes: Vec<i32> = parameters.iter().map(|&(code, _)| code).collect();
    assert_eq!(taken("", 47), [vec![0], codes].concat());
    for (code, count) in parameters {
        // With three bytes come, a 0x20 needs data: field 51 says how many.
        assert_eq!(taken(&format!("47={code}"), 48), up_to(count - 1), "{code}");
        for come in 0..count {
            for number in 0..6 {
                let used = if number < come { 255 } else { 0 };
                let edits = format!("47={code},48={come}");
                assert_eq!(taken(&edits, 49 + number as usize), up_to(used));
            }
            assert_eq!(taken(&format!("47={code},48={come}"), 55), [0]);
        }
    }
    let loads = "47=32,48=3,49=255,50=255";
    assert_eq!(taken(&format!("{loads},55=1"), 51), from_to(1, 255));
    assert_eq!(taken(&format!("{loads},55=200"), 51), from_to(200, 255));
    for third in [1, 2, 254, 255] {
        let data = taken(&format!("{loads},51={third}"), 55);
        assert_eq!(data, from_to(1, third));
    }
    assert_eq!(taken(&format!("{loads},51=0"), 55), []);
    assert_eq!(taken("47=32,51=1,55=1", 48), [3]);
}

/// "the map (114 digits 0 or 1, key 1 first)"
#[test]
fn the_map_has_a_digit_for_each_key() {
    for code in CODES {
        let edits = format!("56=0*{}+1+0*{}", code - 1, COUNT - usize::from(code));
        let state = read(&edited(&edits)).expect("a state");
        assert!(state.keys.held().eq([code]));
    }
    let all = read(&edited("56=1*114")).expect("a state");
    assert_eq!(all.keys.count(), 114);
    for map in [
        "",
        "0",
        "0*113",
        "0*115",
        "0*113+2",
        "2+0*113",
        "0*113+-",
        "-",
        "0*113+\\0",
        "0*100+A+0*13",
    ] {
        assert!(!is_read(&format!("56={map}")), "{map}");
    }
    assert_eq!(read(&edited("")).unwrap().keys, Keys::POWER_UP);
}

/// "the queue is empty unless paused"; "the 128-byte queue"
#[test]
fn the_queue_is_empty_unless_paused() {
    for (queue, bytes) in [
        ("1E", &[0x1E][..]),
        ("00", &[0]),
        ("FF0A80", &[0xFF, 0x0A, 0x80]),
    ] {
        let state = read(&edited(&format!("23=1,57={queue}"))).expect("a state");
        assert_eq!(state.queue.bytes(), bytes);
        assert!(!is_read(&format!("57={queue}")));
    }
    assert_eq!(read(&edited("23=1")).unwrap().queue, Queue::EMPTY);
    assert!(is_read(&format!("23=1,57=9E*{QUEUE_ROOM}")));
    assert!(!is_read(&format!("23=1,57=9E*{}", QUEUE_ROOM + 1)));
    assert!(!is_read(&format!("23=1,57=9E*{QUEUE_ROOM}+9")));
    for queue in [
        "", "1", "1E1", "1e", "G0", "1 E", "--", "-1E", "1E-", "0x1E", "1E 1F", "\\0",
    ] {
        assert!(!is_read(&format!("23=1,57={queue}")), "{queue}");
    }
}

/// "5, given exactly when the line is one that no such state writes"
#[test]
fn other_lines_are_refused() {
    let spellings = [
        "", "00", "01", "+0", "+1", "-0", "-00", " 0", "0 ", "0x0", "0.0", "A", "-", "--1", "1-",
        "\\0", "0\\0", "\\r", "0\\r",
    ];
    for field in 1..=FIELDS - 2 {
        for spelling in spellings {
            assert!(
                !is_read(&format!("{field}={spelling}")),
                "{field}={spelling}"
            );
        }
        for long in [
            "0*1000",
            "1*1000",
            "9*1000",
            "00000000000000000000000000000001",
            "4294967296",
            "4294967297",
            "18446744073709551616",
            "18446744073709551617",
        ] {
            assert!(!is_read(&format!("{field}={long}")), "{field}={long}");
            assert!(!is_read(&format!("{field}=-{long}")), "{field}=-{long}");
        }
        // 56 and 58 fields
        assert!(!is_read(&format!("without={field}")));
        assert!(!is_read(&format!("{field}=0\\t0")));
    }
    for edits in [
        "without=56",
        "without=57",
        "56=\\t",
        "57=-\\t",
        "57=-\\t-",
        "57=\\n-",
        "1=\\t0",
        "1=0\\n",
    ] {
        assert!(!is_read(edits), "{edits}");
    }
    for line in [
        "",
        "\n",
        "-",
        "-\n",
        "\t",
        "0",
        "0\n",
        "line\tanswer\tbytes\n",
    ] {
        assert_eq!(read(line.as_bytes()), None, "{line:?}");
    }
    let good = edited("");
    assert_eq!(read(&[&good[..], &good].concat()), None);
    assert_eq!(read(&[&good[..], b"\n"].concat()), None);
    assert_eq!(read(&[b"\xEF\xBB\xBF", &good[..]].concat()), None);
    assert_eq!(read(&vec![b'0'; 1_000_000]), None);
    let spaced: Vec<u8> = good
        .iter()
        .map(|&byte| if byte == b'\t' { b' ' } else { byte })
        .collect();
    assert_eq!(read(&spaced), None);
}

/// The output of the door for lines in the notation of the papers.
fn told(lent: usize, session: &str) -> Vec<String> {
    let mut player = Player::new(Format::Vectors, Rules::DOCUMENT, lent);
    let mut out = Vec::new();
    for line in lines(session) {
        player.play(line.as_bytes(), &mut out);
    }
    String::from_utf8(out)
        .unwrap()
        .lines()
        .map(String::from)
        .collect()
}

fn hex_of(line: &[u8]) -> String {
    let mut hex = Vec::new();
    push_hex(line, &mut hex);
    String::from_utf8(hex).unwrap()
}

/// "A buffer that is too short for the line is refused with 4."
#[test]
fn a_line_is_saved_where_it_has_room() {
    let whole = format!("1\t0\t{}", hex_of(&edited("")));
    assert_eq!(told(SHORTEST, "? save"), [whole]);
    for lent in [0, 1, SHORTEST - 1] {
        assert_eq!(told(lent, "? save; ? save"), ["1\t4\t-", "2\t4\t-"]);
    }
}

/// On 5 "power-up is handed back", and on a bad line nothing changes.
#[test]
fn a_line_that_is_refused_hands_back_power_up() {
    let state = hex_of(&edited("23=1,57=1E"));
    let power_up = hex_of(&edited(""));
    let output = told(
        BUFFER,
        "? load [23=1,57=1E]; ? save; ? load 1; ? load; ? load ; ? load 0a; ? load 0A ; ? load - ; ? load --; \
         ? load 0 A; ? load  0A; ? loads 0A; ? save 0A; ? save; ? load -; ? save; ? load [23=1]; ? load 0A; ? save",
    );
    let bad = (3..=13).map(|number| format!("{number}\t9\t-"));
    let expected: Vec<String> = [String::from("1\t0\t-"), format!("2\t0\t{state}")]
        .into_iter()
        .chain(bad)
        .chain([
            format!("14\t0\t{state}"),
            "15\t5\t-".into(),
            format!("16\t0\t{power_up}"),
            "17\t0\t-".into(),
            "18\t5\t-".into(),
            format!("19\t0\t{power_up}"),
        ])
        .collect();
    assert_eq!(output, expected);
}

fn resumed(input: &[u8]) -> String {
    let mut output = Vec::new();
    resume(&mut &input[..], &mut output).expect("a write to memory");
    String::from_utf8(output).expect("text")
}

/// The first line as it stands, or `-`; then a session; then the line of its end.
#[test]
fn a_session_goes_on_from_a_line() {
    let line = |edits: &str| String::from_utf8(edited(edits)).unwrap();
    let header = "line\tanswer\tbytes\n";
    let cases = [
        (String::new(), "0\t5\t-\n".into(), ""),
        ("-".into(), "0\t0\t-\n".into(), ""),
        ("-\n".into(), "0\t0\t-\n".into(), ""),
        ("-\nT".into(), "0\t0\t-\n1\t0\t-\n".into(), "46=1"),
        ("-\r\nT\n".into(), "0\t5\t-\n1\t0\t-\n".into(), "46=1"),
        ("\nT\n".into(), "0\t5\t-\n1\t0\t-\n".into(), "46=1"),
        (line(""), "0\t0\t-\n".into(), ""),
        (line("end="), "0\t5\t-\n".into(), ""),
        (line("23=1,57=1E,end="), "0\t5\t-\n".into(), ""),
        (line("end=\\n\\n"), "0\t0\t-\n1\t9\t-\n".into(), ""),
        (
            line("23=1,57=1E") + "B\t11\n?\tsave\nB\t13",
            "0\t0\t-\n1\t0\t1E\n2\t9\t-\n3\t0\t-\n".into(),
            "23=1",
        ),
        (
            "x".repeat(LONGEST - 1) + "\nK\t1E\t1",
            "0\t5\t-\n1\t0\t1E\n".into(),
            "56=0*29+1+0*84",
        ),
        ("0".repeat(300_000), String::from("0\t5\t-\n"), ""),
    ];
    for (input, output, end) in cases {
        assert_eq!(
            resumed(input.as_bytes()),
            format!("{header}{output}{}", line(end))
        );
    }
}
