//! Gathers the packets of a reply.

use crate::key::Refusal;
use crate::packet::{
    packets_needed, part_carried, Channel, Continuation, ErrorCode, Opening, Packet, ERROR, LONGEST,
};

/// How far a reply is gathered.
#[derive(Clone, Copy, Debug, PartialEq, Eq)]
pub enum Progress {
    /// No packet of the reply is here.
    Awaited,
    /// `done` packets of a reply of `length` bytes are here, and more are to come.
    Begun { length: usize, done: usize },
    /// The reply is the first `length` bytes of the message buffer.
    Whole { length: usize },
    /// There is no reply, but this code.
    Ended(u8),
}

impl From<ErrorCode> for Progress {
    fn from(code: ErrorCode) -> Self {
        Progress::Ended(code as u8)
    }
}

/// The gathering of a reply to this command on this channel.
#[derive(Clone, Copy, Debug)]
pub struct Gathering {
    channel: Channel,
    command: u8,
    progress: Progress,
}

impl Gathering {
    pub fn new(channel: Channel, command: u8) -> Self {
        Gathering {
            channel,
            command,
            progress: Progress::Awaited,
        }
    }

    pub fn channel(&self) -> Channel {
        self.channel
    }

    pub fn command(&self) -> u8 {
        self.command
    }

    pub fn progress(&self) -> Progress {
        self.progress
    }

    /// A packet of the key. Those of other channels change nothing, and so does every packet once
    /// the gathering has ended.
    pub fn packet(&mut self, packet: &[u8], buffer: &mut [u8]) -> Result<Progress, Refusal> {
        let packet = packet.try_into().map_err(|_| Refusal::Packet)?;
        let buffer = buffer.first_chunk_mut().ok_or(Refusal::MessageBuffer)?;
        if matches!(self.progress, Progress::Awaited | Progress::Begun { .. }) {
            self.progress = match Packet::read(packet) {
                Packet::Opening(opening) if opening.channel == self.channel => {
                    self.opening(opening, buffer)
                }
                Packet::Continuation(next) if next.channel == self.channel => {
                    self.continuation(next, buffer)
                }
                _ => self.progress,
            };
        }
        Ok(self.progress)
    }

    /// An opening packet, while the gathering has not ended.
    fn opening(&self, opening: Opening, buffer: &mut [u8; LONGEST]) -> Progress {
        if opening.command == ERROR {
            return Progress::Ended(opening.payload[0]);
        }
        if self.progress != Progress::Awaited {
            return ErrorCode::InvalidSequence.into();
        }
        if opening.command != self.command {
            return ErrorCode::InvalidCommand.into();
        }
        let length = usize::from(opening.length);
        if length > LONGEST {
            return ErrorCode::InvalidLength.into();
        }
        take(length, 0, opening.payload, buffer)
    }

    /// A continuation, while the gathering has not ended; before any opening it is a stray one.
    fn continuation(&self, next: Continuation, buffer: &mut [u8; LONGEST]) -> Progress {
        let Progress::Begun { length, done } = self.progress else {
            return self.progress;
        };
        if usize::from(next.number) + 1 != done {
            return ErrorCode::InvalidSequence.into();
        }
        take(length, done, next.payload, buffer)
    }
}

/// Takes the next payload of a reply, of which `done` packets are here.
fn take(length: usize, done: usize, payload: &[u8], buffer: &mut [u8; LONGEST]) -> Progress {
    let part = part_carried(done, length);
    let taken = &payload[..part.len()];
    buffer[part].copy_from_slice(taken);
    let done = done + 1;
    if done == packets_needed(length) {
        Progress::Whole { length }
    } else {
        Progress::Begun { length, done }
    }
}

#[cfg(test)]
mod tests {
    use super::*;
    use crate::packet::{cut, CBOR, PACKET, PING};

    const OWN: Channel = Channel(7);
    const OTHER: Channel = Channel(0x0700_0000);
    const REPLY: [u8; 117] = [0x61; 117];

    /// Any opening packet.
    fn opening(channel: Channel, command: u8, length: u16, payload: u8) -> [u8; PACKET] {
        let mut packet = [payload; PACKET];
        packet[..4].copy_from_slice(&channel.0.to_be_bytes());
        packet[4] = 0x80 | command;
        packet[5..7].copy_from_slice(&length.to_be_bytes());
        packet
    }

    /// The progress after each packet, in a buffer that is full of 0xEE at first.
    fn gathered(packets: &[[u8; PACKET]]) -> (Vec<Progress>, [u8; LONGEST + 1]) {
        let mut gathering = Gathering::new(OWN, CBOR);
        let mut buffer = [0xEE; LONGEST + 1];
        let progress = packets
            .iter()
            .map(|packet| gathering.packet(packet, &mut buffer).expect("a packet"))
            .collect();
        (progress, buffer)
    }

    /// The progress after the last packet.
    fn last(packets: &[[u8; PACKET]]) -> Progress {
        let (progress, _) = gathered(packets);
        *progress.last().expect("a packet at least")
    }

    #[test]
    fn replies_of_every_length() {
        let bytes: Vec<u8> = (0..LONGEST).map(|n| n as u8).collect();
        for length in (0..400).chain([LONGEST - 1, LONGEST]) {
            let packets: Vec<_> = cut(OWN, CBOR, &bytes[..length]).collect();
            let (progress, buffer) = gathered(&packets);
            assert_eq!(progress.last(), Some(&Progress::Whole { length }));
            for (done, &progress) in (1..packets.len()).zip(&progress) {
                assert_eq!(progress, Progress::Begun { length, done });
            }
            assert_eq!(buffer[..length], bytes[..length]);
            assert!(buffer[length..].iter().all(|&byte| byte == 0xEE));
        }
    }

    #[test]
    fn what_changes_nothing() {
        let own: Vec<_> = cut(OWN, CBOR, &REPLY).collect();
        let others: Vec<_> = cut(OTHER, CBOR, &[0x62; 117]).collect();
        let error = opening(OTHER, ERROR, 1, 0x06);
        let packets = [
            own[1], own[0], others[0], others[1], error, own[1], others[2], own[2], own[0], error,
        ];
        let (progress, buffer) = gathered(&packets);
        let length = REPLY.len();
        let begun = |done| Progress::Begun { length, done };
        let whole = Progress::Whole { length };
        let expected = [
            vec![Progress::Awaited],
            [begun(1)].repeat(4),
            [begun(2)].repeat(2),
            [whole].repeat(3),
        ];
        assert_eq!(progress, expected.concat());
        assert_eq!(buffer[..length], REPLY);
        assert_eq!(buffer[length..], [0xEE; LONGEST + 1 - 117]);
    }

    #[test]
    fn what_ends_it() {
        let own: Vec<_> = cut(OWN, CBOR, &REPLY).collect();
        let over = LONGEST as u16 + 1;
        for (first, packet, code) in [
            (None, opening(OWN, ERROR, 1, 0x0B), 0x0B),
            (None, opening(OWN, ERROR, over, 0xFF), 0xFF),
            (None, opening(OWN, PING, 1, 0), 0x01),
            (None, opening(OWN, PING, over, 0), 0x01),
            (None, opening(OWN, CBOR, over, 0), 0x03),
            (None, opening(OWN, CBOR, 0xFFFF, 0), 0x03),
            (Some(own[0]), opening(OWN, ERROR, 1, 0x05), 0x05),
            (Some(own[0]), opening(OWN, CBOR, 117, 0), 0x04),
            (Some(own[0]), opening(OWN, PING, over, 0), 0x04),
            (Some(own[0]), opening(OWN, CBOR, over, 0), 0x04),
            (Some(own[0]), own[2], 0x04),
        ] {
            let mut packets: Vec<_> = first.into_iter().chain([packet]).collect();
            assert_eq!(last(&packets), Progress::Ended(code), "{packets:02x?}");
            packets.extend([own[0], own[1], opening(OWN, ERROR, 1, 0x7F)]);
            assert_eq!(last(&packets), Progress::Ended(code));
            // What ended it has written nothing.
            let untouched = if first.is_some() { 57 } else { 0 };
            let (_, buffer) = gathered(&packets);
            assert!(buffer[untouched..].iter().all(|&byte| byte == 0xEE));
        }
    }

    #[test]
    fn an_error_is_never_a_reply() {
        let mut gathering = Gathering::new(OWN, ERROR);
        let packet = opening(OWN, ERROR, 1, 0x06);
        let progress = gathering.packet(&packet, &mut [0; LONGEST]);
        assert_eq!(progress, Ok(Progress::Ended(0x06)));
    }

    #[test]
    fn bad_calls() {
        let packet = opening(OWN, CBOR, 0, 0);
        let ended = opening(OWN, PING, 0, 0);
        for first in [packet, ended] {
            let mut gathering = Gathering::new(OWN, CBOR);
            let mut buffer = [0; LONGEST];
            for _ in 0..2 {
                for size in [0, 63, 65] {
                    let other_size = vec![0; size];
                    let found = gathering.packet(&other_size, &mut buffer[1..]);
                    assert_eq!(found, Err(Refusal::Packet));
                }
                let found = gathering.packet(&packet, &mut buffer[1..]);
                assert_eq!(found, Err(Refusal::MessageBuffer));
                assert!(gathering.packet(&first, &mut buffer).is_ok());
            }
        }
    }
}
