//! Scripts for the viewer's end: [`writer`] writes them, with [`parts`] of commands and
//! [`replies`], and [`tally`] says what they reach.

mod packets;
pub mod parts;
pub mod replies;
pub mod tally;
pub mod writer;
