//! The firmware's calls against the model's, in one process: the same call on the same bytes, and
//! then the word and every byte that was lent, or lies around what was lent, are compared.
//!
//! The calls come from the scripts of [`super::writer`]: traffic of several channels, whole
//! transactions, time, the core, buffers that are too short, states that are put in. Beside each,
//! [`asides`] makes calls on blocks that no script has: cut, longer, of random bytes, with a byte
//! changed, out of order or made fresh, and puts the key back. [`lent`] has the buffers, [`run`]
//! compares, [`ways`] counts what came up and [`difference`] tells what differs.

pub mod asides;
pub mod blocks;
pub mod difference;
pub mod lent;
pub mod run;
pub mod ways;

use crate::key::Ticket;
use crate::line::Line;

/// A call, without the buffers that are lent to it.
#[derive(Clone, Debug, PartialEq, Eq)]
pub enum Call {
    Fresh,
    Packet(Vec<u8>),
    Time(u32),
    Deliver(Ticket, Vec<u8>),
    Fetch,
    Check(Vec<u8>),
}

impl Call {
    /// The call that a line of a script asks for; the bench has others, of which a firmware has none.
    pub fn of_line(line: Line) -> Option<Call> {
        Some(match line {
            Line::Packet(bytes) => Call::Packet(bytes),
            Line::Time(elapsed) => Call::Time(elapsed),
            Line::Deliver(ticket, bytes) => Call::Deliver(ticket, bytes),
            Line::Fetch => Call::Fetch,
            Line::Check(bytes) => Call::Check(bytes),
            _ => return None,
        })
    }

    /// The bytes that a call is given to read.
    pub fn bytes(&self) -> &[u8] {
        match self {
            Call::Packet(bytes) | Call::Deliver(_, bytes) | Call::Check(bytes) => bytes,
            Call::Fresh | Call::Time(_) | Call::Fetch => &[],
        }
    }

    /// The same call with other bytes to read.
    pub fn with_bytes(&self, bytes: Vec<u8>) -> Call {
        match self {
            Call::Packet(_) => Call::Packet(bytes),
            Call::Deliver(ticket, _) => Call::Deliver(*ticket, bytes),
            Call::Check(_) => Call::Check(bytes),
            Call::Fresh | Call::Time(_) | Call::Fetch => self.clone(),
        }
    }
}
