//! A job: calls that a host makes, which both sides do again and again, and what must come of them.

use std::hint::black_box;

use model::block::BLOCK;
use model::firmware::Calls;
use model::packet::{LONGEST, PACKET};

pub type Packet = [u8; PACKET];

/// The buffers that a host lends. They begin with a cache line, as do [`Incoming`] packets: where
/// bytes stand in one shows in the times, and must be the same in every run.
#[repr(C, align(64))]
#[derive(Clone)]
pub struct Lent {
    pub block: [u8; BLOCK],
    pub reply: Packet,
    pub message: [u8; LONGEST],
}

/// A packet from the host.
#[repr(align(64))]
pub struct Incoming(pub Packet);

/// The calls of a job.
pub enum Work {
    /// These packets come.
    Packets(Vec<Incoming>),
    /// So many packets are fetched.
    Fetches(usize),
    /// A request comes, the core answers it, and so many packets are fetched.
    Round {
        request: Incoming,
        answer: Vec<u8>,
        fetches: usize,
    },
    /// So many bytes at the front of the message buffer are checked.
    Check(usize),
}

/// What stands there after a call: its word, and the reply buffer.
#[derive(Clone, Copy)]
pub struct Step {
    pub word: u64,
    pub reply: Packet,
}

/// What comes of a job: after each call, and in the end.
pub struct Outcome {
    pub steps: Vec<Step>,
    pub lent: Lent,
}

pub struct Job {
    pub name: String,
    /// The buffers before the first call.
    pub before: Lent,
    pub work: Work,
    /// What makes the job the one that it is called.
    pub expected: Outcome,
}

impl Job {
    /// Does the job once, from the block that it begins with; the other buffers are used as they
    /// are. `after_call` is told each call's word.
    pub fn play(&self, calls: &Calls, lent: &mut Lent, mut after_call: impl FnMut(u64, &Lent)) {
        lent.block = self.before.block;
        match &self.work {
            Work::Packets(packets) => {
                for packet in packets {
                    let word = lent.packet(calls, packet);
                    after_call(word, lent);
                }
            }
            Work::Fetches(fetches) => {
                for _ in 0..*fetches {
                    let word = lent.fetch(calls);
                    after_call(word, lent);
                }
            }
            Work::Round {
                request,
                answer,
                fetches,
            } => {
                let ticketed = lent.packet(calls, request);
                after_call(ticketed, lent);
                let delivered = lent.deliver(calls, ticket(ticketed), answer);
                after_call(delivered, lent);
                for _ in 0..*fetches {
                    let word = lent.fetch(calls);
                    after_call(word, lent);
                }
            }
            Work::Check(size) => {
                let word = (calls.check)(black_box(&lent.message[..*size]));
                after_call(word, lent);
            }
        }
    }
}

impl Lent {
    fn packet(&mut self, calls: &Calls, packet: &Incoming) -> u64 {
        (calls.packet)(
            &mut self.block,
            black_box(&packet.0),
            &mut self.reply,
            &mut self.message,
        )
    }

    fn deliver(&mut self, calls: &Calls, ticket: u32, answer: &[u8]) -> u64 {
        (calls.deliver)(
            &mut self.block,
            ticket,
            black_box(answer),
            &mut self.message,
        )
    }

    fn fetch(&mut self, calls: &Calls) -> u64 {
        (calls.fetch)(&mut self.block, &mut self.reply, &self.message)
    }
}

/// The ticket that a word reports.
fn ticket(word: u64) -> u32 {
    (word >> 32) as u32
}
