//! Random states of the key, in order and out of order.
//!
//! The numbers stay small enough for every width a program may keep them in.

use super::random::Random;
use super::LENGTHS;
use crate::key::{Key, Message, Ticket, Transaction, GATHERING_TIME, MOST_CHANNELS};
use crate::packet::{packets_needed, Channel, BROADCAST, CANCEL, CBOR, INIT, MSG, PING};

/// A state in order, as after many events: few channels are given, or about as many as 16 bits or
/// a signed number can count, or all or almost all.
pub fn in_order(random: &mut Random) -> Key {
    let few = 1 + random.below(5) as u32;
    let wide = random.pick(&[65_534, 65_535, 65_536, 65_537, (1 << 31) - 1, 1 << 31]);
    let last = MOST_CHANNELS - random.below(3) as u32;
    let channels = random.pick(&[few, wide, last]);
    let ticket = random.pick(&[0, 1, 5, u32::MAX - 1, u32::MAX]);
    let any = 1 + random.below(channels as usize) as u32;
    let holder = random.pick(&[1, channels, any]);
    let length = random.pick(&LENGTHS);
    let message = Message {
        holder: Channel(holder),
        command: random.pick(&[PING, CBOR, MSG]),
        length: length as u16,
    };
    let needed = packets_needed(length);
    let any = random.below(needed);
    let done = random.pick(&[0, 1, needed - 1, any]);
    let left = random.pick(&[1, 2, 1_500, GATHERING_TIME - 1, GATHERING_TIME]);
    let transaction = match random.below(9) {
        0..=2 => Transaction::Idle,
        3..=5 if needed > 1 => Transaction::Gathering {
            message,
            done: done.clamp(1, needed - 1) as u16,
            left,
        },
        6 | 7 => Transaction::Waiting {
            message: Message {
                command: random.pick(&[CBOR, MSG]),
                ..message
            },
        },
        _ => Transaction::Answering {
            message,
            done: done.min(needed - 1) as u16,
        },
    };
    Key {
        channels,
        ticket: Ticket(ticket),
        transaction,
    }
}

/// A state that breaks one of refusal 7's bounds: that of the channels, or one of a transaction.
/// The model is not asked, so that a state that it would wrongly take is tried too.
pub fn out_of_order(random: &mut Random) -> Key {
    if random.once_in(4) {
        return Key {
            channels: MOST_CHANNELS + 1,
            ..in_order(random)
        };
    }
    loop {
        let mut key = in_order(random);
        let channels = key.channels;
        match &mut key.transaction {
            Transaction::Idle => continue,
            Transaction::Gathering {
                message,
                done,
                left,
            } => match random.below(6) {
                0 => *done = 0,
                1 => *done = over_needed(random, message.length),
                2 => *left = random.pick(&[0, GATHERING_TIME + 1, 65_535]),
                _ => break_message(random, message, channels),
            },
            Transaction::Waiting { message } => match random.below(4) {
                0 => message.command = PING,
                _ => break_message(random, message, channels),
            },
            Transaction::Answering { message, done } => match random.below(4) {
                0 => *done = over_needed(random, message.length),
                _ => break_message(random, message, channels),
            },
        }
        return key;
    }
}

/// As many packets as a message needs, or more.
fn over_needed(random: &mut Random, length: u16) -> u16 {
    let needed = packets_needed(usize::from(length)) as u16;
    random.pick(&[needed, needed, needed + 1, 255])
}

/// Gives a message a holder that is not given, a length over the longest, or a command that opens
/// no transaction.
fn break_message(random: &mut Random, message: &mut Message, channels: u32) {
    match random.below(3) {
        0 => message.holder = Channel(random.pick(&[0, channels + 1, BROADCAST.0])),
        1 => message.length = random.pick(&[7_610, 7_611, 8_192, 65_535]),
        _ => message.command = random.pick(&[0, 2, 4, INIT, CANCEL, 0x3F, 0x40, 0x7F]),
    }
}
