//! What the events of a script reach: for each, the phase it met, who sent what, and the answer.

use std::collections::BTreeMap;

use crate::bench::Bench;
use crate::cbor::item_length;
use crate::key::{Key, Transaction, MOST_CHANNELS};
use crate::line::Line;
use crate::packet::{Packet, BROADCAST, CANCEL, CBOR, INIT, MSG, PACKET, PING};

/// How often each case came up.
#[derive(Clone, Debug, Default, PartialEq, Eq)]
pub struct Tally(pub BTreeMap<String, u64>);

impl Tally {
    /// Counts an event that met this state, got this answer and left the bench like this.
    pub fn count(&mut self, key: &Key, event: &Line, answer: &str, after: &Bench) {
        let case = match event {
            Line::Packet(bytes) => match <&[u8; PACKET]>::try_from(&bytes[..]) {
                // What a packet says does not matter where the call is turned away.
                Ok(_) if answer.starts_with("refused") => "packet".to_string(),
                Ok(packet) => packet_case(key, packet),
                Err(_) => "packet of another size".to_string(),
            },
            Line::Time(_) => "time".to_string(),
            Line::Deliver(_, bytes) => delivery_case(bytes.len()).to_string(),
            Line::Fetch => "fetch".to_string(),
            Line::Check(_) => "check".to_string(),
            Line::Item(_, bytes) if is_whole_text(bytes) => "text".to_string(),
            Line::Item(..) => "item".to_string(),
            Line::Apdu(bytes) => apdu_case(bytes),
            _ => return,
        };
        let phase = match event {
            Line::Check(_) | Line::Item(..) | Line::Apdu(_) => String::new(),
            _ => format!("{} ", phase(key)),
        };
        let length = match event {
            Line::Check(bytes) | Line::Item(_, bytes) => bytes.len(),
            _ => 0,
        };
        let answer =
            own_status(key, event, after).unwrap_or_else(|| kind_of_answer(answer, length));
        let case = format!("{phase}{case}: {answer}");
        *self.0.entry(case).or_default() += 1;
    }

    pub fn add(&mut self, other: Tally) {
        for (case, count) in other.0 {
            *self.0.entry(case).or_default() += count;
        }
    }
}

/// The phase, and whether it is that of a MSG.
fn phase(key: &Key) -> String {
    if key.channels > MOST_CHANNELS {
        return "overfull".to_string();
    }
    if !key.is_in_order() {
        return "out of order".to_string();
    }
    let phase = match key.transaction {
        Transaction::Idle => "idle",
        Transaction::Gathering { .. } => "gathering",
        Transaction::Waiting { .. } => "waiting",
        Transaction::Answering { .. } => "answering",
    };
    match key.transaction.message() {
        Some(message) if message.command == MSG => format!("{phase} MSG"),
        _ => phase.to_string(),
    }
}

/// A delivery, by whether it is long enough for a status of one byte or of two.
fn delivery_case(length: usize) -> &'static str {
    match length {
        1 => "deliver one byte",
        2 => "deliver two bytes",
        _ => "deliver",
    }
}

/// How an APDU's size goes with its length bytes, and what else is wrong with it.
fn apdu_case(bytes: &[u8]) -> String {
    let size = match *bytes {
        [_, _, _, _, _, high, low, ref rest @ ..] => {
            let length = usize::from(u16::from_be_bytes([high, low]));
            match rest.len().checked_sub(length) {
                None => "fewer".to_string(),
                Some(more @ 0..=3) => format!("{} + n", 7 + more),
                Some(_) => "more".to_string(),
            }
        }
        _ => bytes.len().to_string(),
    };
    let mut case = format!("apdu of {size}");
    for (place, good, name) in [
        (0, 0..=0, "class"),
        (1, 1..=3, "instruction"),
        (4, 0..=0, "fifth"),
    ] {
        if bytes.get(place).is_some_and(|byte| !good.contains(byte)) {
            case.push_str(&format!(", {name}"));
        }
    }
    case
}

/// Our own two status bytes, where a packet has completed a MSG that gets them.
fn own_status(before: &Key, event: &Line, after: &Bench) -> Option<String> {
    let is_completion = matches!(event, Line::Packet(_))
        && !matches!(before.transaction, Transaction::Answering { .. });
    match after.key.transaction {
        Transaction::Answering { message, .. } if is_completion && message.command == MSG => {
            let [high, low, ..] = *after.message;
            Some(format!("status {high:02x}{low:02x}"))
        }
        _ => None,
    }
}

/// Who sent what; `given` is a channel that is given and does not hold the key.
fn packet_case(key: &Key, packet: &[u8; PACKET]) -> String {
    let (channel, what) = match Packet::read(packet) {
        Packet::Opening(opening) => {
            let what = match opening.command {
                PING => "PING",
                INIT => "INIT",
                CBOR => "CBOR",
                MSG if opening.length == 0 => "MSG of no bytes",
                MSG => "MSG",
                CANCEL => "CANCEL",
                _ => "another command",
            };
            (opening.channel, what)
        }
        Packet::Continuation(next) => (next.channel, "continuation"),
    };
    let holder = key.transaction.message().map(|message| message.holder);
    let who = if channel == BROADCAST {
        "broadcast"
    } else if !(1..=key.channels).contains(&channel.0) {
        "unknown"
    } else if holder == Some(channel) {
        "holder"
    } else {
        "given"
    };
    format!("{who} {what}")
}

/// Whether the bytes begin with a text that would be taken as a byte string, so that its
/// characters alone decide.
fn is_whole_text(bytes: &[u8]) -> bool {
    match *bytes {
        [first @ 0x60..=0x7B, ref rest @ ..] => {
            let byte_string = [&[first - 0x20], rest].concat();
            item_length(&byte_string, 0).is_ok()
        }
        _ => false,
    }
}

/// The answer to a line with this many bytes, without what differs from case to case.
fn kind_of_answer(answer: &str, length: usize) -> String {
    let words: Vec<&str> = answer.split_whitespace().collect();
    match words[..] {
        ["ok", "ticket", _] => "ticket".to_string(),
        ["ok", "reply", packet] => match packet.get(8..10) {
            Some("bf") => format!("error {}", packet.get(14..16).unwrap_or_default()),
            Some("86") if packet.starts_with("ffffffff") => {
                sort_of_channel(packet.get(30..38).unwrap_or_default()).to_string()
            }
            Some("86") => "INIT reply".to_string(),
            _ => "packet".to_string(),
        },
        ["good", "hash", _] => "good hash".to_string(),
        ["status", status, "at", place] => {
            let place = place
                .parse()
                .map_or("nowhere", |place| sort_of_place(place, length));
            format!("status {status} {place}")
        }
        ["item", _] => "item".to_string(),
        _ => words.join(" "),
    }
}

/// Which channel is given.
fn sort_of_channel(channel: &str) -> &'static str {
    match u32::from_str_radix(channel, 16) {
        Ok(MOST_CHANNELS) => "the last channel",
        Ok(1..=65_535) => "channel below 65536",
        Ok(65_536..) => "channel beyond 65535",
        _ => "no channel",
    }
}

/// Where in this many bytes a fault is.
fn sort_of_place(place: usize, length: usize) -> &'static str {
    match place {
        0 => "at 0",
        1 => "at 1",
        _ if place == length => "at the length",
        4_096.. => "beyond 4095",
        256.. => "beyond 255",
        _ => "below 256",
    }
}
