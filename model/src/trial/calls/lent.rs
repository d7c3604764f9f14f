//! The buffers of a host, and a call on them.

use super::Call;
use crate::block::BLOCK;
use crate::firmware::Calls;
use crate::line::{LONGEST_LINE, MESSAGE_BUFFER, REPLY_BUFFER};
use crate::packet::{LONGEST, PACKET};
use crate::trial::random::Random;

/// The longest block that is lent.
pub const LONGEST_BLOCK: usize = 2 * BLOCK;
/// No line has more bytes in it.
const LONGEST_INPUT: usize = LONGEST_LINE / 2;
/// Bytes before and behind what can be lent of each buffer, at least one before it.
const AROUND: usize = 16;

/// Everything that is lent, with bytes around it that nobody is to touch.
#[derive(Clone, Debug, PartialEq, Eq)]
pub struct Lent {
    pub block: Vec<u8>,
    pub reply: Vec<u8>,
    pub message: Vec<u8>,
    /// A packet, a delivery or a command, which a call only reads.
    pub input: Vec<u8>,
}

impl Lent {
    /// Buffers of random bytes.
    pub fn random(random: &mut Random) -> Lent {
        let mut buffer = |most: usize| random.bytes(AROUND + most + AROUND);
        Lent {
            block: buffer(LONGEST_BLOCK),
            reply: buffer(REPLY_BUFFER),
            message: buffer(MESSAGE_BUFFER),
            input: buffer(LONGEST_INPUT),
        }
    }

    /// Each buffer with its name.
    pub fn named(&self) -> [(&'static str, &[u8]); 4] {
        [
            ("block", &self.block),
            ("reply", &self.reply),
            ("message", &self.message),
            ("bytes to read", &self.input),
        ]
    }

    /// Takes over the bytes of other buffers.
    pub fn copy_from(&mut self, other: &Lent) {
        self.block.copy_from_slice(&other.block);
        self.reply.copy_from_slice(&other.reply);
        self.message.copy_from_slice(&other.message);
        self.input.copy_from_slice(&other.input);
    }
}

/// The part of a buffer that is lent.
#[derive(Clone, Copy, Debug, PartialEq, Eq)]
pub struct Part {
    pub start: usize,
    pub length: usize,
}

impl Part {
    /// A part that begins anywhere, since a host's buffers need not be aligned.
    fn anywhere(random: &mut Random, length: usize) -> Part {
        Part {
            start: 1 + random.below(AROUND),
            length,
        }
    }

    pub fn of(self, buffer: &[u8]) -> &[u8] {
        &buffer[self.start..][..self.length]
    }

    pub fn of_mut(self, buffer: &mut [u8]) -> &mut [u8] {
        &mut buffer[self.start..][..self.length]
    }
}

/// What is lent of each buffer.
#[derive(Clone, Copy, Debug, PartialEq, Eq)]
pub struct Parts {
    pub block: Part,
    pub reply: Part,
    pub message: Part,
    pub input: Part,
}

impl Parts {
    /// As much as a call wants, and of the block at times more.
    pub fn enough(random: &mut Random) -> Parts {
        let longer = BLOCK + random.below(LONGEST_BLOCK - BLOCK + 1);
        let block = random.pick(&[BLOCK, longer]);
        Parts {
            block: Part::anywhere(random, block),
            reply: Part::anywhere(random, PACKET),
            message: Part::anywhere(random, LONGEST),
            input: Part::anywhere(random, 0),
        }
    }
}

/// Puts a call's bytes where the call reads them, and makes it.
pub fn make(calls: &Calls, call: &Call, lent: &mut Lent, parts: &Parts) -> u64 {
    parts
        .input
        .of_mut(&mut lent.input)
        .copy_from_slice(call.bytes());
    let block = parts.block.of_mut(&mut lent.block);
    let reply = parts.reply.of_mut(&mut lent.reply);
    let message = parts.message.of_mut(&mut lent.message);
    let input = parts.input.of(&lent.input);
    match *call {
        Call::Fresh => (calls.fresh)(block),
        Call::Packet(_) => (calls.packet)(block, input, reply, message),
        Call::Time(elapsed) => (calls.time)(block, elapsed, reply),
        Call::Deliver(ticket, _) => (calls.deliver)(block, ticket.0, input, message),
        Call::Fetch => (calls.fetch)(block, reply, message),
        Call::Check(_) => (calls.check)(input),
    }
}
