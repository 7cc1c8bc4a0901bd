//! Long moves of another program, for request A6 of document 02: "Smooth long
//! moves." Every total of an axis is played, by each of the ways in which held
//! motion is sent, and the packets are judged twice: by the laws of the request,
//! without the model's controller and its splitting, and by what the model's text
//! program prints.
//!
//! | Part | What it is |
//! |---|---|
//! | `moves` | which totals, and what sends them |
//! | `session` | a session that plays moves, one after the other |
//! | `laws` | what the packets of a move must be |
//! | `judging` | what a program printed, held against the laws and the model |
//! | `tally` | what was seen, and the least that must be |

pub mod judging;
pub mod laws;
pub mod moves;
pub mod session;
pub mod tally;
