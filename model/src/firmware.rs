//! The calls for a firmware in C (request 2026-05): the key's calls on a lent block, answered with
//! a word of 64 bits, as `include/bellaqsum.h` has them.

use crate::block::{decode, encode, BLOCK};
use crate::command;
use crate::key::{Answer, Key, Refusal, Ticket};

/// A reply packet was written; of the checking call, there is a hash.
const SHOWS: u64 = 1 << 8;
/// A ticket is reported.
const TICKETED: u64 = 1 << 9;
/// Where the ticket begins, or a place in a command.
const NUMBER: u32 = 32;

/// The call for a packet from the host.
pub type OnPacket =
    fn(block: &mut [u8], packet: &[u8], reply: &mut [u8], message: &mut [u8]) -> u64;

/// The six calls, so that those of another firmware can be put beside the model's.
#[derive(Clone, Copy, Debug)]
pub struct Calls {
    pub fresh: fn(block: &mut [u8]) -> u64,
    pub packet: OnPacket,
    pub time: fn(block: &mut [u8], elapsed: u32, reply: &mut [u8]) -> u64,
    pub deliver: fn(block: &mut [u8], ticket: u32, bytes: &[u8], message: &mut [u8]) -> u64,
    pub fetch: fn(block: &mut [u8], reply: &mut [u8], message: &[u8]) -> u64,
    pub check: fn(message: &[u8]) -> u64,
}

/// The model's own.
pub const MODEL: Calls = Calls {
    fresh,
    packet,
    time,
    deliver,
    fetch,
    check,
};

/// Makes the block that of a fresh key, whatever stood in it.
pub fn fresh(block: &mut [u8]) -> u64 {
    let Some(block) = block.first_chunk_mut() else {
        return word(Err(Refusal::State));
    };
    *block = encode(&Key::default());
    word(Ok(Answer::Silent))
}

/// A packet from the host.
pub fn packet(block: &mut [u8], packet: &[u8], reply: &mut [u8], message: &mut [u8]) -> u64 {
    on_state(block, |key| key.packet(packet, reply, message))
}

/// A time step of this many milliseconds.
pub fn time(block: &mut [u8], elapsed: u32, reply: &mut [u8]) -> u64 {
    on_state(block, |key| key.time_step(elapsed, reply))
}

/// The core's reply to the request of this ticket.
pub fn deliver(block: &mut [u8], ticket: u32, bytes: &[u8], message: &mut [u8]) -> u64 {
    on_state(block, |key| key.deliver(Ticket(ticket), bytes, message))
}

/// Writes the next reply packet.
pub fn fetch(block: &mut [u8], reply: &mut [u8], message: &[u8]) -> u64 {
    on_state(block, |key| key.fetch(reply, message))
}

/// Checks a CBOR command.
pub fn check(message: &[u8]) -> u64 {
    let at = |place: usize| (place as u64) << NUMBER;
    match command::check(message) {
        Err(fault) => u64::from(fault.status as u8) | at(fault.place),
        Ok(good) => match good.hash_place(message) {
            None => 0,
            Some(place) => SHOWS | at(place),
        },
    }
}

/// Makes a call on the state in a block, and puts the new state in its place unless the call is
/// turned away. What is no state's block is turned away before the call is looked at.
fn on_state(block: &mut [u8], call: impl FnOnce(&mut Key) -> Result<Answer, Refusal>) -> u64 {
    let Some(block) = block.first_chunk_mut::<BLOCK>() else {
        return word(Err(Refusal::State));
    };
    let Some(mut key) = decode(block) else {
        return word(Err(Refusal::State));
    };
    let answer = call(&mut key);
    if answer.is_ok() {
        *block = encode(&key);
    }
    word(answer)
}

/// Whether a word says that a reply packet was written or, of the checking call, that there is a
/// hash.
pub fn shows(word: u64) -> bool {
    word & SHOWS != 0
}

/// Whether a word reports a ticket.
pub fn is_ticketed(word: u64) -> bool {
    word & TICKETED != 0
}

fn word(answer: Result<Answer, Refusal>) -> u64 {
    match answer {
        Err(refusal) => u64::from(refusal.number()),
        Ok(Answer::Silent) => 0,
        Ok(Answer::Reply) => SHOWS,
        Ok(Answer::Request(ticket)) => TICKETED | u64::from(ticket.0) << NUMBER,
    }
}

#[cfg(test)]
mod tests {
    use super::*;
    use crate::packet::{LONGEST, PACKET};

    /// A block with bytes behind it, and the other buffers.
    struct Host {
        block: [u8; BLOCK + 3],
        reply: [u8; PACKET],
        message: [u8; LONGEST],
    }

    impl Host {
        /// One channel is given; what lies beyond the block is 0xEE.
        fn new() -> Self {
            let mut host = Host {
                block: [0xEE; BLOCK + 3],
                reply: [0xEE; PACKET],
                message: [0xEE; LONGEST],
            };
            assert_eq!(fresh(&mut host.block), 0);
            let greeting = b"\xFF\xFF\xFF\xFF\x86\x00\x08\x01\x02\x03\x04\x05\x06\x07\x08";
            assert_eq!(host.send(greeting), 0x100);
            host
        }

        /// Sends a packet that begins like this and goes on with zeros.
        fn send(&mut self, start: &[u8]) -> u64 {
            let mut bytes = [0; PACKET];
            bytes[..start.len()].copy_from_slice(start);
            packet(&mut self.block, &bytes, &mut self.reply, &mut self.message)
        }

        fn holds(&self, start: &[u8]) {
            let mut block = [0; BLOCK];
            block[..start.len()].copy_from_slice(start);
            assert_eq!(self.block[..BLOCK], block);
            assert_eq!(self.block[BLOCK..], [0xEE; 3]);
        }
    }

    #[test]
    fn a_request_and_its_reply() {
        let mut host = Host::new();
        host.holds(b"\x42\x51\x00\x00\x00\x00\x00\x01");
        assert_eq!(
            host.reply[..24],
            *b"\xFF\xFF\xFF\xFF\x86\x00\x11\x01\x02\x03\x04\x05\x06\x07\x08\0\0\0\x01\x02\x01\0\0\x04"
        );
        assert_eq!(host.send(b"\0\0\0\x01\x90\x00\x01\x04"), 0x1_0000_0200);
        host.holds(b"\x42\x51\x02\x10\0\0\0\x01\0\0\0\x01\0\0\0\x01\0\0\0\x01");
        assert_eq!(check(&host.message[..1]), 0);
        let delivered = deliver(&mut host.block, 1, &[0x00, 0xA0], &mut host.message);
        assert_eq!(delivered, 0);
        host.holds(b"\x42\x51\x03\x10\0\0\0\x01\0\0\0\x01\0\0\0\x01\0\0\0\x02");
        let fetched = fetch(&mut host.block, &mut host.reply, &host.message);
        assert_eq!(fetched, 0x100);
        assert_eq!(host.reply[..9], *b"\0\0\0\x01\x90\x00\x02\x00\xA0");
        host.holds(b"\x42\x51\x00\x00\0\0\0\x01\0\0\0\x01");
        let fetched = fetch(&mut host.block, &mut host.reply, &host.message);
        assert_eq!(fetched, 4);
    }

    #[test]
    fn gathering_and_its_end() {
        let mut host = Host::new();
        assert_eq!(host.send(b"\0\0\0\x01\x81\x00\x3A"), 0);
        host.holds(b"\x42\x51\x01\x01\0\0\0\x01\0\0\0\0\0\0\0\x01\0\0\0\x3A\0\0\0\x01\0\0\x0B\xB8");
        assert_eq!(time(&mut host.block, 1, &mut host.reply), 0);
        host.holds(b"\x42\x51\x01\x01\0\0\0\x01\0\0\0\0\0\0\0\x01\0\0\0\x3A\0\0\0\x01\0\0\x0B\xB7");
        assert_eq!(time(&mut host.block, 2_999, &mut host.reply), 0x100);
        host.holds(b"\x42\x51\x00\x00\x00\x00\x00\x01");
    }

    /// The four calls that look into a block, on this one and with all else too short.
    fn all_on(block: &mut [u8]) -> [u64; 4] {
        [
            packet(block, &[], &mut [], &mut []),
            time(block, 0, &mut []),
            deliver(block, 0, &[], &mut []),
            fetch(block, &mut [], &[]),
        ]
    }

    #[test]
    fn seven_before_all_other_numbers() {
        let good = encode(&Key::default());
        assert_eq!(all_on(&mut good.clone()), [1, 2, 3, 2]);
        let overfull = Key {
            channels: u32::MAX,
            ..Key::default()
        };
        for bad in [&[0; BLOCK][..], &good[1..], &[], &encode(&overfull)] {
            let mut block = bad.to_vec();
            assert_eq!(all_on(&mut block), [7; 4], "{bad:02x?}");
            assert_eq!(block, bad);
        }
    }

    #[test]
    fn fresh_looks_at_the_length_alone() {
        for length in 0..BLOCK {
            let mut block = vec![0xEE; length];
            assert_eq!(fresh(&mut block), 7);
            assert_eq!(block, vec![0xEE; length]);
        }
        let mut block = [0xEE; BLOCK + 1];
        assert_eq!(fresh(&mut block), 0);
        assert_eq!(block[..BLOCK], encode(&Key::default()));
        assert_eq!(block[BLOCK], 0xEE);
    }

    #[test]
    fn what_a_check_says() {
        assert_eq!(check(&[]), 0x03);
        assert_eq!(check(&[0x04, 0xA0]), 0x1_0000_0003);
        assert_eq!(check(&[0x02, 0xA1, 0x18, 0x01, 0x00]), 0x2_0000_0012);
        let assertion = [&b"\x02\xA2\x01\x60\x02\x58\x20"[..], &[0xAB; 32]].concat();
        assert_eq!(check(&assertion), 0x7_0000_0100);
    }
}
