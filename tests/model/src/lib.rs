//! A model of the keyboard controller, written from the papers: document 01,
//! requests A1, A2 and A4 to A7 of document 02, the protocol's text and the
//! readings of them.
//!
//! `controller::step` takes one input in a state, and `look` is the panel's view of
//! it; `text` reads and writes the lines of the text program, `saved` a state as a
//! line. `receiver` is the host's side of the wire, `listing` its program, and `due`
//! tells what is sent to it. The rest serves the comparison with another program:
//! sessions made at random, those that the papers state, those for sentences of the
//! papers, questions about the state, saved lines of arbitrary states and spoiled
//! ones, sessions that are cut in two, lists of packets, and long moves. `ledger`
//! stands apart: it adds up motion and packets, and uses nothing of the controller.

pub mod arbitrary;
pub mod clock;
pub mod command;
pub mod controller;
pub mod coverage;
pub mod crosscheck;
pub mod cuts;
pub mod differing;
pub mod due;
pub mod generator;
pub mod joysticks;
pub mod keys;
pub mod ledger;
pub mod limits;
pub mod listing;
pub mod long_moves;
pub mod look;
pub mod mouse;
pub mod packet_check;
pub mod papers;
pub mod process;
pub mod program;
pub mod question;
pub mod random;
pub mod receiver;
pub mod rules;
pub mod saved;
pub mod spoil;
pub mod state;
pub mod text;
pub mod vectors;
pub mod wire;
