//! "A saved state as text": request A2.
//!
//! "One line per state, fields parted by tabs, decimal numbers without leading
//! zeros, in the order of document 01's state list, except that the map (114
//! digits 0 or 1, key 1 first) and the queue (hex, `-` if empty) come last,
//! then a line feed."
//!
//! | Field | What it is | Its range |
//! |---|---|---|
//! | 1 | mouse mode: relative, absolute, keycode | 0 to 2 |
//! | 2, 3 | maximum X, Y | 0 to 65,535 in absolute mode, else 0 |
//! | 4, 5 | delta X, Y | 0 to 255 in keycode mode, else 0 |
//! | 6 | button action | 0 to 4 |
//! | 7, 8 | threshold X, Y | 0 to 255 |
//! | 9, 10 | scale X, Y | 0 to 255 |
//! | 11 | Y origin: top, bottom | 0, 1 |
//! | 12 | mouse: off, on | 0, 1 |
//! | 13 | joystick mode: event, interrogation, monitoring, fire monitoring, keycode | 0 to 4 |
//! | 14 | rate | 0 to 255 in monitoring, else 0 |
//! | 15 to 20 | RX RY TX TY VX VY | 0 to 255 in joystick keycode mode, else 0 |
//! | 21 | joysticks: off, on | 0, 1 |
//! | 22 | port 0: mouse, joystick | 0, 1 |
//! | 23 | paused | 0, 1 |
//! | 24, 25 | coordinates X, Y | 0 to the maximum in absolute mode, else 0 |
//! | 26, 27 | held motion X, Y | -254 to 254; -2,032 to 2,032 while paused with the mouse live in relative or keycode mode |
//! | 28, 29 | left, right button | 0, 1 |
//! | 30 | latches | 0 to 15 |
//! | 31, 32 | stick 0, stick 1 | 0 to 15, 128 to 143 |
//! | 33 to 36 | X age, X wait, Y age, Y wait | 0 to 2,551 |
//! | 37 | monitoring ticks | below the rate as it acts in monitoring, else 0 |
//! | 38 | how many samples | 0 to 7 in fire monitoring, else 0 |
//! | 39 | their bits, last in bit 0 | below 2 to the power of field 38 |
//! | 40 to 46 | year, month, day, hour, minute, second, hundredth | a date and time that exist |
//! | 47 | code of the half-received command | 0, or a code that has parameters |
//! | 48 | how many of its parameter bytes have come | fewer than it has; of 0x20 up to 3 |
//! | 49 to 54 | those bytes | 0 to 255, of a whole 0x20 the third from 1; else 0 |
//! | 55 | data bytes of 0x20 still to come | 1 to the third byte once three have come, else 0 |
//! | 56 | the map of keys | 114 digits 0 or 1 |
//! | 57 | the queue | hex, or `-`; `-` unless paused |

use crate::keys::COUNT;
use crate::limits::QUEUE_ROOM;

mod fields;
mod reading;
mod writing;

pub use reading::read;
pub use writing::write;

/// "docs/ numbers the 57 fields from 1."
pub const FIELDS: usize = 57;
/// The fields before the map and the queue, each a number.
pub const NUMBERS: usize = FIELDS - 2;
/// The tabs that part the fields, and the line feed.
const PARTING: usize = FIELDS - 1 + 1;

/// The length of the shortest line: a digit for each number, and no queue.
pub const SHORTEST: usize = NUMBERS + COUNT + 1 + PARTING;

/// What the numbers of the longest line have beside a digit each. Absolute mode
/// has four numbers of five digits and held motion of -254 twice, which is more
/// than the five of -2,032 twice and the deltas of keycode mode have. Joystick
/// keycode mode has six numbers of three digits, more than any other mode. A
/// half-received 0x1B has five of its bytes, more than a 0x20 with its data.
const MORE_DIGITS: usize = 4 * 4 // maximum, coordinates
    + 2 * 3 // held motion
    + 4 * 2 // thresholds, scales
    + 6 * 2 // RX to VY
    + 1 // latches
    + 2 * 2 // sticks
    + 4 * 3 // ages and waits
    + 7 // the clock
    + 1 + 5 * 2; // code and parameters

/// The length of the longest line: such numbers, and a full queue.
pub const LONGEST: usize = NUMBERS + MORE_DIGITS + COUNT + 2 * QUEUE_ROOM + PARTING;
