//! Sessions made at random, the same for the same seed, all in relative mode
//! and without a command that A14 excludes.

use super::lines::{Button, Input};
use super::writer::Writer;
use crate::limits::{HELD_LIMIT, QUEUE_ROOM};

type Scene = fn(&mut Writer);

const SCENES: &[(u64, Scene)] = &[
    (14, |writer| writer.events(12)),
    (8, Writer::mouse_setting),
    (3, Writer::question),
    (3, Writer::ignored),
    (6, held),
    (12, pause),
    (3, full_motion),
    (1, full_queue),
    (4, joysticks),
    (2, monitoring),
    (2, fire_monitoring),
    (6, close),
];

/// A session of at least `lines` lines, up to the end of a scene; the last
/// closes the account.
pub fn session(seed: u64, lines: usize) -> Vec<Input> {
    let mut writer = Writer::new(seed);
    while writer.inputs.len() < lines {
        let scene = writer.random.weighted(SCENES);
        scene(&mut writer);
    }
    close(&mut writer);
    writer.inputs
}

/// Motion that stays held while not paused, and origins that turn meanwhile.
fn held(writer: &mut Writer) {
    let threshold = writer.random.pick(&[100, 200, 255]);
    writer.command(&[0x0B, threshold, threshold]);
    for _ in 0..=writer.random.below(6) {
        writer.motion();
        if writer.random.one_in(2) {
            let origin = writer.random.pick(&[0x0F, 0x10]);
            writer.host(origin);
        }
    }
    match writer.random.below(4) {
        0 => pause(writer),
        1 => joysticks(writer),
        2 => monitoring(writer),
        _ => writer.command(&[0x0B, 1, 1]),
    }
}

/// Events and commands that do not resume, and then one that does.
fn pause(writer: &mut Writer) {
    writer.command(&[0x13]);
    for _ in 0..=writer.random.below(4) {
        match writer.random.below(5) {
            0 => writer.ignored(),
            1 => writer.command(&[0x13]),
            _ => writer.events(5),
        }
    }
    writer.resume();
}

/// Paused motion up to the limit of both axes, and past it.
fn full_motion(writer: &mut Writer) {
    if writer.random.one_in(2) {
        close(writer); // so that the limit is met whatever was held
    } else {
        writer.mouse_setting();
    }
    writer.command(&[0x13]);
    let (x, y) = (writer.random.pick(&[1, -1]), writer.random.pick(&[1, -1]));
    for _ in 0..HELD_LIMIT / 64 {
        writer.motion_by(64 * x, 64 * y);
    }
    writer.motion_by(HELD_LIMIT % 64 * x, HELD_LIMIT % 64 * y);
    for _ in 0..=writer.random.below(5) {
        match writer.random.below(5) {
            0 => writer.motion_by(x, 0),
            1 => writer.motion_by(0, y),
            2 => writer.motion_by(-x, -y),
            3 => writer.motion(),
            _ => writer.event(),
        }
    }
    writer.resume();
}

/// Paused bytes until no more go into the queue, motion and buttons among them.
fn full_queue(writer: &mut Writer) {
    writer.command(&[0x13]);
    let keys = writer.random.pick(&[2, 8, 40]);
    for _ in 0..QUEUE_ROOM {
        match writer.random.below(keys) {
            0 => writer.event(),
            _ => writer.key(),
        }
    }
    for _ in 0..12 {
        writer.motion();
        writer.button();
        writer.key();
    }
    writer.resume();
}

/// Port 0 a joystick: motion is dropped, what was held stays held.
fn joysticks(writer: &mut Writer) {
    writer.stick_command(&[0x14, 0x15, 0x16, 0x19, 0x1A]);
    writer.events(8);
    if writer.random.one_in(3) {
        pause(writer);
    }
    writer.mouse_setting();
}

/// Both sticks every few ticks, with motion and buttons between.
fn monitoring(writer: &mut Writer) {
    writer.stick_command(&[0x17]);
    for _ in 0..=writer.random.below(4) {
        writer.stick();
        writer.tick();
        writer.events(3);
    }
    leave_monitoring(writer);
}

/// Samples that make 0xF8 if none come between.
fn fire_monitoring(writer: &mut Writer) {
    writer.stick_command(&[0x18]);
    for bit in [1, 1, 1, 1, 1, 0, 0, 0] {
        writer.sample(bit);
        if writer.random.one_in(4) {
            writer.motion();
        }
    }
    writer.events(3);
    leave_monitoring(writer);
}

/// A mouse command alone does not leave it, and a pause goes on in it.
fn leave_monitoring(writer: &mut Writer) {
    if writer.random.one_in(3) {
        writer.mouse_setting();
        writer.motion();
    }
    if writer.random.one_in(4) {
        pause(writer);
    }
    writer.stick_command(&[0x14, 0x15, 0x19, 0x1A]);
    writer.mouse_setting();
}

/// Makes the mouse live and its buttons send motion, without an excluded
/// command, and changes the level of a button: of a press and a release, one
/// does so whatever the level was.
fn close(writer: &mut Writer) {
    writer.end_command();
    writer.host(0x14);
    let action = writer.random.between(0, 3) as u8;
    writer.host(0x07);
    writer.host(action);
    writer.host(0x11);
    let button = writer.random.pick(&[Button::Left, Button::Right]);
    let first = writer.random.one_in(2);
    writer.press(button, first);
    writer.press(button, !first);
}
