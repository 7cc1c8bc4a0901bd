//! The limits of document 01, and one of our own. Whatever depends on one is
//! worked out from here.

/// "the 128-byte queue"
pub const QUEUE_ROOM: usize = 128;

/// "-2,032 to 2,032"
pub const HELD_LIMIT: i32 = 2032;

/// "At most 8,264 bytes are ever due at once": a full queue, a make and break
/// pair for each step of motion held on both axes, and a reply.
pub const BUFFER: usize = QUEUE_ROOM + 4 * HELD_LIMIT as usize + 8;

/// A longer line than this is no question.
pub const LONGEST_QUESTION: usize = 16_384;
