//! A ledger of mouse motion, for request A14 of document 02: "No motion lost or
//! doubled." It plays sessions of the relative mode to a program and adds up
//! what it sent and what came back.
//!
//! It is no second controller: it holds no queue, makes no packet and foretells
//! no byte. The rules that it needs for adding up, it has of its own (`settings`).
//! Of the model it uses nothing but the random numbers and the limits that its
//! sessions go up to.
//!
//! | Part | What it is |
//! |---|---|
//! | `account` | motion brought and motion said, and where the two must agree |
//! | `settings` | which commands are executed, when the mouse is live, the origin, what can be written |
//! | `commands` | which bytes are commands |
//! | `packets` | bytes cut into packets, and reports that are none |
//! | `lines` | inputs as lines, and lines of the output |
//! | `tally` | what was seen, and the least that must be |
//! | `scenes`, `requests`, `writer` | the sessions: what belongs together, commands, lines |

pub mod account;
pub mod commands;
pub mod lines;
pub mod packets;
mod requests;
pub mod scenes;
pub mod settings;
pub mod tally;
pub mod writer;
