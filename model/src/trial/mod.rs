//! Differential trials: scripts for the bench, written at random but with an aim, go through the
//! model and through the real program, and every answer is compared.
//!
//! [`writer`] writes the scripts, [`program`] runs the real program, [`run`] compares and
//! [`shrink`] finds the shortest script that still shows a difference. [`breaches`] and [`faults`]
//! put one thing that is wrong at a known place, and [`apdus`] what is wrong with an APDU, so that
//! the model's own answer can be tried too: [`cases`] are lines with answers that are known so.
//!
//! [`calls`] plays the same scripts to the calls of a firmware, without the bench. [`viewer`] writes
//! scripts for the viewer's end; [`parameters`] are what the tables of both ends try. In a
//! [`session`] a line can hang on the answers before it.

use crate::packet::LONGEST;

pub mod apdus;
pub mod breaches;
pub mod calls;
pub mod cases;
pub mod commands;
mod events;
pub mod faults;
pub mod item;
pub mod parameters;
pub mod program;
pub mod progress;
pub mod random;
pub mod run;
pub mod script;
pub mod session;
pub mod shrink;
pub(crate) mod states;
pub mod tally;
pub mod text;
pub mod tree;
pub mod viewer;
pub mod writer;

/// Message lengths around which packets are added.
const LENGTHS: [usize; 16] = [
    0, 1, 2, 7, 8, 56, 57, 58, 59, 115, 116, 117, 118, 500, 7_608, LONGEST,
];
