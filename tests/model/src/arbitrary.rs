//! States within document 01's ranges, at random: those that no input leads to
//! too. Numbers at an edge of their range come more often than others.

use crate::clock::Clock;
use crate::command::{Command, MEMORY_LOAD, MOST_PARAMETERS};
use crate::joysticks::{Joysticks, LONGEST_COUNT, MOST_SAMPLES};
use crate::keys::{Keys, CODES, LAST};
use crate::limits::{HELD_LIMIT, QUEUE_ROOM};
use crate::mouse::{Button, Mouse, KEYS};
use crate::random::Random;
use crate::rules::Rules;
use crate::state::{acting, JoystickMode, MouseMode, Queue, Role, State, Velocity, X, Y};

/// A state; now and then one of those with the longest line.
pub fn state(random: &mut Random) -> State {
    if random.one_in(40) {
        return longest(random);
    }
    let mouse = mouse_settings(random);
    let joysticks = joysticks(random);
    let mut state = State {
        mouse,
        joysticks,
        port0: random.pick(&[Role::Mouse, Role::Mouse, Role::Joystick]),
        paused: random.one_in(2),
        clock: clock(random),
        command: command(random),
        keys: keys(random),
        ..State::power_up(Rules::DOCUMENT)
    };
    state.mouse.held = [X, Y].map(|_| held(random, &state));
    if state.paused {
        let length = queue_length(random);
        state.queue = queue(random, length);
    }
    state
}

/// A state with the longest line: every number has as many digits as it can have
/// together with the others, and the queue is full.
fn longest(random: &mut Random) -> State {
    let all = [u8::MAX; 2];
    let far = [u16::MAX; 2];
    State {
        mouse: Mouse {
            mode: MouseMode::Absolute { maximum: far },
            threshold: all,
            scale: all,
            coordinates: far,
            held: [-254; 2],
            latches: 15,
            ..mouse_settings(random)
        },
        joysticks: Joysticks {
            mode: JoystickMode::Keycode(Velocity {
                breakpoint: all,
                before: all,
                after: all,
            }),
            sticks: [128 + 15; 2],
            age: [LONGEST_COUNT; 2],
            wait: [LONGEST_COUNT; 2],
            ..Joysticks::POWER_UP
        },
        paused: true,
        clock: Clock {
            year: 99,
            month: 12,
            day: 31,
            hour: 23,
            minute: 59,
            second: 59,
            hundredth: 99,
        },
        command: Command::half_received(0x1B, 5, [255, 255, 255, 255, 255, 0], 0),
        keys: keys(random),
        queue: queue(random, QUEUE_ROOM),
        ..State::power_up(Rules::DOCUMENT)
    }
}

/// A number from `first` to `last`.
pub fn number(random: &mut Random, first: i32, last: i32) -> i32 {
    match random.below(8) {
        0 | 1 => first,
        2 | 3 => last,
        4 => (first + 1).min(last),
        5 => (last - 1).max(first),
        _ => random.between(first, last),
    }
}

fn byte(random: &mut Random) -> u8 {
    number(random, 0, u8::MAX.into()) as u8
}

fn bytes(random: &mut Random) -> [u8; 2] {
    [byte(random), byte(random)]
}

fn word(random: &mut Random, last: u16) -> u16 {
    number(random, 0, last.into()) as u16
}

fn mouse_settings(random: &mut Random) -> Mouse {
    let mode = match random.below(3) {
        0 => MouseMode::Relative,
        1 => MouseMode::Absolute {
            maximum: [word(random, u16::MAX), word(random, u16::MAX)],
        },
        _ => MouseMode::Keycode {
            delta: bytes(random),
        },
    };
    let coordinates = match mode {
        MouseMode::Absolute { maximum } => maximum.map(|last| word(random, last)),
        _ => [0, 0],
    };
    let mut mouse = Mouse {
        mode,
        action: number(random, 0, KEYS.into()) as u8,
        threshold: bytes(random),
        scale: bytes(random),
        origin_bottom: random.one_in(2),
        on: !random.one_in(3),
        coordinates,
        latches: number(random, 0, 15) as u8,
        ..Mouse::POWER_UP
    };
    for button in [Button::Left, Button::Right] {
        if random.one_in(2) {
            mouse.toggle(button);
        }
    }
    mouse
}

/// "held motion is -254 to 254, and beyond that, to 2,032 either way, only while
/// paused with the mouse live in relative or keycode mode"
fn held(random: &mut Random, state: &State) -> i32 {
    let absolute = state.mouse.mode.is_absolute();
    let limit = match state.paused && state.mouse_is_live() && !absolute {
        true => HELD_LIMIT,
        false => 254,
    };
    match random.below(4) {
        0 => 0,
        1 => random.between(-254, 254),
        _ => number(random, -limit, limit),
    }
}

fn joysticks(random: &mut Random) -> Joysticks {
    let mode = match random.below(5) {
        0 => JoystickMode::Event,
        1 => JoystickMode::Interrogation,
        2 => JoystickMode::Monitoring { rate: byte(random) },
        3 => JoystickMode::FireMonitoring,
        _ => JoystickMode::Keycode(Velocity {
            breakpoint: bytes(random),
            before: bytes(random),
            after: bytes(random),
        }),
    };
    let ticks = match mode {
        JoystickMode::Monitoring { rate } => number(random, 0, acting(rate) - 1),
        _ => 0,
    };
    let sample_count = match mode {
        JoystickMode::FireMonitoring => number(random, 0, MOST_SAMPLES.into()) as u8,
        _ => 0,
    };
    Joysticks {
        mode,
        on: !random.one_in(3),
        sticks: [stick(random), stick(random)],
        age: [count(random), count(random)],
        wait: [count(random), count(random)],
        ticks: ticks as u8,
        samples: number(random, 0, (1 << sample_count) - 1) as u8,
        sample_count,
    }
}

fn stick(random: &mut Random) -> u8 {
    let position = number(random, 0, 15) as u8;
    position + random.pick(&[0, 128])
}

fn count(random: &mut Random) -> u16 {
    match random.below(3) {
        0 => random.between(0, 40) as u16,
        _ => word(random, LONGEST_COUNT),
    }
}

fn clock(random: &mut Random) -> Clock {
    let mut clock = Clock {
        year: match random.below(3) {
            0 => random.pick(&[0, 3, 4, 84, 85, 96, 99]),
            _ => random.between(0, 99) as u8,
        },
        month: match random.below(3) {
            0 => 2,
            _ => number(random, 1, 12) as u8,
        },
        day: 1,
        hour: number(random, 0, 23) as u8,
        minute: number(random, 0, 59) as u8,
        second: number(random, 0, 59) as u8,
        hundredth: number(random, 0, 99) as u8,
    };
    let last_day = clock.last_day(&Rules::DOCUMENT);
    clock.day = number(random, 1, last_day.into()) as u8;
    clock
}

/// No command, or a half-received one of every kind.
fn command(random: &mut Random) -> Command {
    match random.below(5) {
        0 | 1 => Command::default(),
        2 => half_received(random, MEMORY_LOAD),
        _ => {
            let codes = codes_with_parameters();
            let code = random.pick(&codes);
            half_received(random, code)
        }
    }
}

/// The codes of commands that can be half received.
pub fn codes_with_parameters() -> Vec<u8> {
    let has_some = |code: &u8| Command::most_parameters_come(*code).is_some();
    (1..=u8::MAX).filter(has_some).collect()
}

/// "a half-received command lacks at least one byte"
fn half_received(random: &mut Random, code: u8) -> Command {
    let most = Command::most_parameters_come(code).expect("a code with parameters");
    let come = number(random, 0, most.into()) as u8;
    let mut parameters = [0; MOST_PARAMETERS];
    for parameter in &mut parameters[..usize::from(come)] {
        *parameter = byte(random);
    }
    if !Command::loads_data(code, come) {
        return Command::half_received(code, come, parameters, 0);
    }
    let third = parameters[2].max(1);
    parameters[2] = third;
    let data = number(random, 1, third.into()) as u8;
    Command::half_received(code, come, parameters, data)
}

fn keys(random: &mut Random) -> Keys {
    let mut keys = Keys::POWER_UP;
    match random.below(6) {
        0 => {}
        1 => CODES.for_each(|code| keys.follow(code, true)),
        2 => keys.follow(random.pick(&[1, 2, LAST - 1, LAST]), true),
        3 => (0..4).for_each(|_| keys.follow(random.between(1, LAST.into()) as u8, true)),
        _ => CODES.for_each(|code| keys.follow(code, random.one_in(2))),
    }
    keys
}

fn queue_length(random: &mut Random) -> usize {
    match random.below(8) {
        0 | 1 => 0,
        2 => 1,
        3 => QUEUE_ROOM,
        4 => QUEUE_ROOM - 1,
        5 => random.below(QUEUE_ROOM as u64 + 1) as usize,
        _ => random.below(12) as usize,
    }
}

/// A queue of any bytes.
pub fn queue(random: &mut Random, length: usize) -> Queue {
    let mut queue = Queue::EMPTY;
    for _ in 0..length {
        queue.append(&[random.byte()], QUEUE_ROOM);
    }
    queue
}
