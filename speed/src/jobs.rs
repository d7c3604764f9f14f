//! The jobs that are timed, each with what must come of it.

use model::block::{encode, BLOCK};
use model::key::{Key, Message, Ticket, Transaction, GATHERING_TIME};
use model::packet::{cut, Channel, ErrorCode, CBOR, ERROR, LONGEST, PACKET, PING};
use model::trial::random::Random;

use crate::commands::{self, Command};
use crate::job::{Incoming, Job, Lent, Outcome, Packet, Step, Work};
use crate::table::grouped;

pub const GATHERED: &str = "PING of 7,609 bytes gathered";
pub const FETCHED: &str = "PING of 7,609 bytes fetched";
pub const DRAWING_NOTHING: &str = "129 packets that draw nothing";
const _: () = assert!(LONGEST == 7_609);

/// The packets of the longest message.
const PACKETS: usize = 129;

/// What stands in a buffer that a job does not read.
const FILL: u8 = 0xEE;

/// The channel that holds the key, and another one that was given.
const HOLDER: Channel = Channel(1);
const OTHER: Channel = Channel(2);

/// Words: nothing is told; a reply, or of a check a hash; the first ticket; refusal 4.
const SILENT: u64 = 0;
const SHOWS: u64 = 1 << 8;
const FIRST_TICKET: u64 = 1 << 9 | 1 << 32;
const NOTHING_TO_FETCH: u64 = 4;

const GET_INFO: u8 = 0x04;
/// Bytes in the answer to GetInfo, with its status: some versions, extensions and options.
const INFO: usize = 121;

/// All jobs, in the order of the table.
pub fn all() -> Vec<Job> {
    let ping = Random::new(4).bytes(LONGEST);
    let make_credential = commands::make_credential();
    let mut jobs = vec![
        gathered_ping(&ping),
        fetched_ping(&ping),
        busy(),
        get_info(),
        gathered_command(&make_credential),
        checked(&make_credential),
    ];
    jobs.extend(commands::get_assertions().iter().map(checked));
    jobs.push(drawing_nothing(&ping));
    jobs
}

fn gathered_ping(ping: &[u8]) -> Job {
    Job {
        name: GATHERED.to_string(),
        before: lent(idle(0), &[]),
        work: Work::Packets(cut(HOLDER, PING, ping).map(Incoming).collect()),
        expected: Outcome {
            steps: vec![untouched(SILENT); PACKETS],
            lent: lent(answering(), ping),
        },
    }
}

/// Begins as the gathering must have ended.
fn fetched_ping(ping: &[u8]) -> Job {
    let packets: Vec<Packet> = cut(HOLDER, PING, ping).collect();
    Job {
        name: FETCHED.to_string(),
        before: lent(answering(), ping),
        work: Work::Fetches(PACKETS),
        expected: Outcome {
            lent: replied(&packets, lent(idle(0), ping)),
            steps: packets.into_iter().map(shown).collect(),
        },
    }
}

/// A host knocks while another one's message is gathered.
fn busy() -> Job {
    let [knock] = whole(OTHER, PING, &[FILL]);
    let [error] = whole(OTHER, ERROR, &[ErrorCode::Busy as u8]);
    Job {
        name: "error reply of one packet (busy)".to_string(),
        before: lent(gathering(), &[]),
        work: Work::Packets(vec![Incoming(knock)]),
        expected: Outcome {
            steps: vec![shown(error)],
            lent: replied(&[error], lent(gathering(), &[])),
        },
    }
}

/// Packets are fetched until there is none, as a firmware does it.
fn get_info() -> Job {
    let answer = Random::new(5).bytes(INFO);
    let [request] = whole(HOLDER, CBOR, &[GET_INFO]);
    let replies: [Packet; 3] = whole(HOLDER, CBOR, &answer);
    let mut steps = vec![untouched(FIRST_TICKET), untouched(SILENT)];
    steps.extend(replies.map(shown));
    steps.push(Step {
        word: NOTHING_TO_FETCH,
        reply: replies[2],
    });
    Job {
        name: format!("GetInfo round, answer of {INFO} bytes"),
        before: lent(idle(0), &[]),
        expected: Outcome {
            steps,
            lent: replied(&replies, lent(idle(1), &answer)),
        },
        work: Work::Round {
            request: Incoming(request),
            answer,
            fetches: replies.len() + 1,
        },
    }
}

fn gathered_command(command: &Command) -> Job {
    let mut steps = vec![untouched(SILENT); PACKETS - 1];
    steps.push(untouched(FIRST_TICKET));
    Job {
        name: format!("gathered and checked: {}", described(command)),
        before: lent(idle(0), &[]),
        work: Work::Packets(cut(HOLDER, CBOR, &command.bytes).map(Incoming).collect()),
        expected: Outcome {
            steps,
            lent: lent(waiting(), &command.bytes),
        },
    }
}

/// The command is good, and its hash is found.
fn checked(command: &Command) -> Job {
    let place = place_of_hash(&command.bytes) as u64;
    let before = lent(waiting(), &command.bytes);
    Job {
        name: format!("checked: {}", described(command)),
        before: before.clone(),
        work: Work::Check(command.bytes.len()),
        expected: Outcome {
            steps: vec![untouched(SHOWS | place << 32)],
            lent: before,
        },
    }
}

/// Continuations of a channel that does not hold the key, while another one's message is gathered:
/// all that is done with packets, but for their payload.
fn drawing_nothing(ping: &[u8]) -> Job {
    let continuations: Vec<Packet> = cut(OTHER, PING, ping).skip(1).collect();
    let packets = continuations.into_iter().cycle().take(PACKETS);
    Job {
        name: DRAWING_NOTHING.to_string(),
        before: lent(gathering(), &[]),
        work: Work::Packets(packets.map(Incoming).collect()),
        expected: Outcome {
            steps: vec![untouched(SILENT); PACKETS],
            lent: lent(gathering(), &[]),
        },
    }
}

fn described(command: &Command) -> String {
    format!("{}, {} bytes", command.shape, grouped(command.bytes.len()))
}

fn place_of_hash(command: &[u8]) -> usize {
    let hash = commands::hash();
    command
        .windows(hash.len())
        .position(|part| part == hash)
        .expect("a command with its hash")
}

/// The packets of a message that takes so many.
fn whole<const N: usize>(channel: Channel, command: u8, message: &[u8]) -> [Packet; N] {
    let packets: Vec<Packet> = cut(channel, command, message).collect();
    packets.try_into().expect("as many packets as are named")
}

/// A call that leaves the reply buffer as it was before the job.
fn untouched(word: u64) -> Step {
    Step {
        word,
        reply: [FILL; PACKET],
    }
}

fn shown(reply: Packet) -> Step {
    Step { word: SHOWS, reply }
}

/// Buffers with this block, and this at the front of the message buffer.
fn lent(block: [u8; BLOCK], message: &[u8]) -> Lent {
    let mut lent = Lent {
        block,
        reply: [FILL; PACKET],
        message: [FILL; LONGEST],
    };
    lent.message[..message.len()].copy_from_slice(message);
    lent
}

/// The buffers after these replies.
fn replied(replies: &[Packet], lent: Lent) -> Lent {
    Lent {
        reply: *replies.last().expect("a reply"),
        ..lent
    }
}

/// The block of a key that has given both channels.
fn block(ticket: u32, transaction: Transaction) -> [u8; BLOCK] {
    encode(&Key {
        channels: OTHER.0,
        ticket: Ticket(ticket),
        transaction,
    })
}

fn idle(ticket: u32) -> [u8; BLOCK] {
    block(ticket, Transaction::Idle)
}

/// The longest message, of the holder.
fn longest(command: u8) -> Message {
    Message {
        holder: HOLDER,
        command,
        length: LONGEST as u16,
    }
}

/// The first packet of a PING is there.
fn gathering() -> [u8; BLOCK] {
    let gathering = Transaction::Gathering {
        message: longest(PING),
        done: 1,
        left: GATHERING_TIME,
    };
    block(0, gathering)
}

/// A command waits for the core, with the first ticket.
fn waiting() -> [u8; BLOCK] {
    let waiting = Transaction::Waiting {
        message: longest(CBOR),
    };
    block(1, waiting)
}

/// A PING is gathered, and nothing fetched of its reply.
fn answering() -> [u8; BLOCK] {
    let answering = Transaction::Answering {
        message: longest(PING),
        done: 0,
    };
    block(0, answering)
}
