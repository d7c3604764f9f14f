//! What the calls of a run came to: which call met which block, and what it answered.

use std::collections::BTreeMap;
use std::fmt;

use super::lent::{Lent, Parts};
use super::Call;
use crate::block::{decode, BLOCK};
use crate::firmware::{is_ticketed, shows};
use crate::key::{Key, Transaction};
use crate::packet::{CBOR, ERROR, INIT, LONGEST, MSG, PACKET, PING};

/// The fields that each phase has no use for: where they stand, and their sizes.
const UNUSED: [&[(usize, usize)]; 4] = [
    &[(3, 1), (12, 4), (16, 4), (20, 4), (24, 4)],
    &[],
    &[(20, 4), (24, 4)],
    &[(24, 4)],
];

/// A call, the block it met and its answer.
#[derive(Clone, Copy, Debug, PartialEq, Eq, PartialOrd, Ord)]
struct Way {
    call: &'static str,
    met: Met,
    answer: Answer,
}

/// What a call finds in its block. A fault that is named is the only one.
#[derive(Clone, Copy, Debug, PartialEq, Eq, PartialOrd, Ord)]
enum Met {
    /// The checking call has none.
    NoBlock,
    ShortBlock,
    OtherMark,
    OtherPhase,
    SpareByte,
    /// The phase and where the field stands.
    UnusedField(u8, usize),
    /// A length or a count of packets that does not fit 16 bits.
    TooWide,
    SeveralFaults,
    OutOfOrder,
    Idle,
    /// The phase of a transaction and its command.
    Busy(&'static str, &'static str),
}

/// What a word says, and of a packet that is written what it is.
#[derive(Clone, Copy, Debug, PartialEq, Eq, PartialOrd, Ord)]
enum Answer {
    Nothing,
    Refused(u8),
    /// Refusal 7, where this number would apply to what else is lent.
    RefusedBefore(u8),
    Ticket,
    Error(u8),
    InitReply,
    FirstPacket,
    LaterPacket,
    Hash,
    Status(u8),
}

/// How often each way came up.
#[derive(Clone, Debug, Default)]
pub struct Ways {
    ways: BTreeMap<Way, u64>,
    /// How often a block of each length was lent.
    lengths: BTreeMap<usize, u64>,
}

impl Ways {
    /// Counts a call that met these bytes, answered this word and left those bytes.
    pub fn count(&mut self, call: &Call, before: &Lent, parts: &Parts, word: u64, after: &Lent) {
        let met = match call {
            Call::Check(_) => Met::NoBlock,
            _ => met(parts.block.of(&before.block)),
        };
        let answer = match call {
            Call::Check(_) => verdict(word),
            _ if word == 7 => match other_number(call, parts) {
                None => Answer::Refused(7),
                Some(number) => Answer::RefusedBefore(number),
            },
            _ => answer(word, parts.reply.of(&after.reply)),
        };
        let call = name(call);
        *self.ways.entry(Way { call, met, answer }).or_default() += 1;
        if met != Met::NoBlock {
            *self.lengths.entry(parts.block.length).or_default() += 1;
        }
    }

    /// The ways in words, as `packet, idle: ticket`.
    pub fn names(&self) -> Vec<String> {
        let ways = self.ways.keys().map(Way::to_string);
        let lengths = self.lengths.keys();
        ways.chain(lengths.map(|length| format!("a block of {length} bytes")))
            .collect()
    }

    /// How often each of these parts of a way came up, the most frequent first.
    fn summed(&self, part: impl Fn(&Way) -> String) -> String {
        let mut sums: BTreeMap<String, u64> = BTreeMap::new();
        for (way, count) in &self.ways {
            *sums.entry(part(way)).or_default() += count;
        }
        let mut sums: Vec<_> = sums.into_iter().collect();
        sums.sort_by_key(|&(_, count)| std::cmp::Reverse(count));
        let sums: Vec<String> = sums
            .into_iter()
            .map(|(part, count)| format!("{part} {count}"))
            .collect();
        sums.join(", ")
    }
}

/// The calls, blocks and answers; with `{:#}` all the ways instead, a line each.
impl fmt::Display for Ways {
    fn fmt(&self, f: &mut fmt::Formatter) -> fmt::Result {
        if f.alternate() {
            for (way, count) in &self.ways {
                writeln!(f, "{count:>10}  {way}")?;
            }
        }
        writeln!(f, "calls: {}", self.summed(|way| way.call.to_string()))?;
        writeln!(f, "blocks: {}", self.summed(|way| way.met.to_string()))?;
        write!(f, "answers: {}", self.summed(|way| way.answer.to_string()))
    }
}

impl fmt::Display for Way {
    fn fmt(&self, f: &mut fmt::Formatter) -> fmt::Result {
        let Way { call, met, answer } = self;
        write!(f, "{call}, {met}: {answer}")
    }
}

impl fmt::Display for Met {
    fn fmt(&self, f: &mut fmt::Formatter) -> fmt::Result {
        match self {
            Met::NoBlock => write!(f, "no block"),
            Met::ShortBlock => write!(f, "short block"),
            Met::OtherMark => write!(f, "other mark"),
            Met::OtherPhase => write!(f, "other phase"),
            Met::SpareByte => write!(f, "spare byte"),
            Met::UnusedField(phase, at) => write!(f, "field {at} in phase {phase}"),
            Met::TooWide => write!(f, "too wide"),
            Met::SeveralFaults => write!(f, "several faults"),
            Met::OutOfOrder => write!(f, "out of order"),
            Met::Idle => write!(f, "idle"),
            Met::Busy(phase, command) => write!(f, "{phase} {command}"),
        }
    }
}

impl fmt::Display for Answer {
    fn fmt(&self, f: &mut fmt::Formatter) -> fmt::Result {
        match self {
            Answer::Nothing => write!(f, "0"),
            Answer::Refused(number) => write!(f, "refused {number}"),
            Answer::RefusedBefore(number) => write!(f, "refused 7 before {number}"),
            Answer::Ticket => write!(f, "ticket"),
            Answer::Error(code) => write!(f, "error {code:02x}"),
            Answer::InitReply => write!(f, "INIT reply"),
            Answer::FirstPacket => write!(f, "first packet"),
            Answer::LaterPacket => write!(f, "later packet"),
            Answer::Hash => write!(f, "hash"),
            Answer::Status(status) => write!(f, "status {status:02x}"),
        }
    }
}

fn name(call: &Call) -> &'static str {
    match call {
        Call::Fresh => "fresh",
        Call::Packet(_) => "packet",
        Call::Time(_) => "time",
        Call::Deliver(..) => "deliver",
        Call::Fetch => "fetch",
        Call::Check(_) => "check",
    }
}

fn met(block: &[u8]) -> Met {
    let Some(block) = block.first_chunk() else {
        return Met::ShortBlock;
    };
    match decode(block) {
        None => fault(block),
        Some(key) if !key.is_in_order() => Met::OutOfOrder,
        Some(key) => phase(&key),
    }
}

/// What is wrong with a block that is no state's, where it would be one in order but for that.
fn fault(block: &[u8; BLOCK]) -> Met {
    let wrong = |at: usize, right: &[u8]| {
        let mut mended = *block;
        mended[at..][..right.len()].copy_from_slice(right);
        decode(&mended).is_some_and(|key| key.is_in_order())
    };
    if wrong(0, &[0x42, 0x51]) {
        return Met::OtherMark;
    }
    if wrong(28, &[0; 4]) {
        return Met::SpareByte;
    }
    let Some(unused) = UNUSED.get(usize::from(block[2])) else {
        let phases = [[0], [1], [2], [3]];
        let is_only = phases.iter().any(|phase| wrong(2, phase));
        return if is_only {
            Met::OtherPhase
        } else {
            Met::SeveralFaults
        };
    };
    if let Some((at, _)) = unused
        .iter()
        .find(|&&(at, size)| wrong(at, &[0; 4][..size]))
    {
        return Met::UnusedField(block[2], *at);
    }
    if wrong(16, &[0; 2]) || wrong(20, &[0; 2]) {
        return Met::TooWide;
    }
    Met::SeveralFaults
}

fn phase(key: &Key) -> Met {
    let phase = match key.transaction {
        Transaction::Idle => return Met::Idle,
        Transaction::Gathering { .. } => "gathering",
        Transaction::Waiting { .. } => "waiting",
        Transaction::Answering { .. } => "answering",
    };
    let command = match key.transaction.message().map(|message| message.command) {
        Some(PING) => "PING",
        Some(MSG) => "MSG",
        Some(CBOR) => "CBOR",
        _ => "another command",
    };
    Met::Busy(phase, command)
}

/// The number that a call gets for what else is lent to it, its block aside.
fn other_number(call: &Call, parts: &Parts) -> Option<u8> {
    let is_packet = matches!(call, Call::Packet(_));
    let wants_reply = is_packet || matches!(call, Call::Time(_) | Call::Fetch);
    let wants_message = is_packet || matches!(call, Call::Deliver(..) | Call::Fetch);
    let numbers = [
        (1, is_packet && parts.input.length != PACKET),
        (2, wants_reply && parts.reply.length < PACKET),
        (3, wants_message && parts.message.length < LONGEST),
    ];
    numbers
        .into_iter()
        .find_map(|(number, applies)| applies.then_some(number))
}

fn answer(word: u64, reply: &[u8]) -> Answer {
    match word as u8 {
        0 if shows(word) => kind_of_packet(reply),
        0 if is_ticketed(word) => Answer::Ticket,
        0 => Answer::Nothing,
        number => Answer::Refused(number),
    }
}

/// What a packet for the host is.
fn kind_of_packet(packet: &[u8]) -> Answer {
    const ERROR_BYTE: u8 = ERROR | 0x80;
    const INIT_BYTE: u8 = INIT | 0x80;
    match packet[4] {
        ERROR_BYTE => Answer::Error(packet[7]),
        INIT_BYTE => Answer::InitReply,
        0x80.. => Answer::FirstPacket,
        _ => Answer::LaterPacket,
    }
}

/// What the checking call says.
fn verdict(word: u64) -> Answer {
    match word as u8 {
        0 if shows(word) => Answer::Hash,
        0 => Answer::Nothing,
        status => Answer::Status(status),
    }
}
