//! Packets: where a message's bytes stand in them, and how one is read and written
//! (document 01, "Packets").

use std::ops::Range;

/// Bytes in a packet.
pub const PACKET: usize = 64;
/// Payload bytes of an opening packet.
pub const FIRST_PAYLOAD: usize = 57;
/// Payload bytes of a continuation.
pub const LATER_PAYLOAD: usize = 59;
/// Continuations a message can have: their numbers run 0, 1, .. 127.
pub const CONTINUATIONS: usize = 128;
/// Bytes in the longest message.
pub const LONGEST: usize = FIRST_PAYLOAD + CONTINUATIONS * LATER_PAYLOAD;

/// The bit of byte 4 that marks an opening packet.
const OPENING_BIT: u8 = 0x80;
const OPENING_HEADER: usize = PACKET - FIRST_PAYLOAD;
const CONTINUATION_HEADER: usize = PACKET - LATER_PAYLOAD;

/// Commands, without the bit that marks an opening packet.
pub const PING: u8 = 0x01;
pub const MSG: u8 = 0x03;
pub const INIT: u8 = 0x06;
pub const CBOR: u8 = 0x10;
pub const CANCEL: u8 = 0x11;
pub const ERROR: u8 = 0x3F;

/// The number of a channel.
#[derive(Clone, Copy, Debug, PartialEq, Eq)]
pub struct Channel(pub u32);

/// The channel on which a host asks for a channel of its own.
pub const BROADCAST: Channel = Channel(0xFFFF_FFFF);

/// The codes an error packet carries.
#[derive(Clone, Copy, Debug, PartialEq, Eq)]
#[repr(u8)]
pub enum ErrorCode {
    InvalidCommand = 0x01,
    InvalidLength = 0x03,
    InvalidSequence = 0x04,
    Timeout = 0x05,
    Busy = 0x06,
    InvalidChannel = 0x0B,
    Other = 0x7F,
}

/// A packet that opens a message.
#[derive(Clone, Copy, Debug)]
pub struct Opening<'a> {
    pub channel: Channel,
    pub command: u8,
    pub length: u16,
    pub payload: &'a [u8],
}

/// A packet that goes on with a message.
#[derive(Clone, Copy, Debug)]
pub struct Continuation<'a> {
    pub channel: Channel,
    pub number: u8,
    pub payload: &'a [u8],
}

/// A packet as byte 4 tells it apart.
#[derive(Clone, Copy, Debug)]
pub enum Packet<'a> {
    Opening(Opening<'a>),
    Continuation(Continuation<'a>),
}

impl<'a> Packet<'a> {
    /// Reads a packet: channel in bytes 0 to 3, big-endian; byte 4 at 128 or more opens.
    pub fn read(bytes: &'a [u8; PACKET]) -> Self {
        let channel = Channel(u32::from_be_bytes([bytes[0], bytes[1], bytes[2], bytes[3]]));
        if bytes[4] & OPENING_BIT != 0 {
            Packet::Opening(Opening {
                channel,
                command: bytes[4] & !OPENING_BIT,
                length: u16::from_be_bytes([bytes[5], bytes[6]]),
                payload: &bytes[OPENING_HEADER..],
            })
        } else {
            Packet::Continuation(Continuation {
                channel,
                number: bytes[4],
                payload: &bytes[CONTINUATION_HEADER..],
            })
        }
    }
}

/// The packets a message of this length needs: 0 and 57 need 1, 58 and 116 need 2.
pub fn packets_needed(length: usize) -> usize {
    1 + length.saturating_sub(FIRST_PAYLOAD).div_ceil(LATER_PAYLOAD)
}

/// The part of a message of `length` bytes that its packet `index` carries, 0 being the opening.
/// `index` is below [`packets_needed`] of `length`.
pub fn part_carried(index: usize, length: usize) -> Range<usize> {
    let end = FIRST_PAYLOAD + index * LATER_PAYLOAD;
    let start = if index == 0 { 0 } else { end - LATER_PAYLOAD };
    start..end.min(length)
}

/// Writes packet `index` of a message; unused bytes are zeros.
/// The message is at most [`LONGEST`] bytes long and `index` below [`packets_needed`].
pub fn write(
    packet: &mut [u8; PACKET],
    channel: Channel,
    command: u8,
    message: &[u8],
    index: usize,
) {
    packet[..4].copy_from_slice(&channel.0.to_be_bytes());
    let header = if index == 0 {
        packet[4] = command | OPENING_BIT;
        packet[5..7].copy_from_slice(&(message.len() as u16).to_be_bytes());
        OPENING_HEADER
    } else {
        packet[4] = (index - 1) as u8;
        CONTINUATION_HEADER
    };
    let payload = &message[part_carried(index, message.len())];
    let (used, unused) = packet[header..].split_at_mut(payload.len());
    used.copy_from_slice(payload);
    unused.fill(0);
}

/// Cuts a message of at most [`LONGEST`] bytes into its packets.
pub fn cut(
    channel: Channel,
    command: u8,
    message: &[u8],
) -> impl Iterator<Item = [u8; PACKET]> + '_ {
    (0..packets_needed(message.len())).map(move |index| {
        let mut packet = [0; PACKET];
        write(&mut packet, channel, command, message, index);
        packet
    })
}

#[cfg(test)]
mod tests {
    use super::*;

    #[test]
    fn lengths_and_packets() {
        assert_eq!(LONGEST, 7_609);
        for (length, packets) in [(0, 1), (57, 1), (58, 2), (116, 2), (117, 3), (7_609, 129)] {
            assert_eq!(packets_needed(length), packets, "{length} bytes");
        }
    }

    #[test]
    fn the_parts_of_a_message_follow_each_other() {
        for length in 0..=LONGEST {
            let mut end = 0;
            for index in 0..packets_needed(length) {
                let part = part_carried(index, length);
                assert_eq!(part.start, end);
                end = part.end;
            }
            assert_eq!(end, length);
        }
    }

    #[test]
    fn a_message_cut_and_read_is_that_message() {
        let message: Vec<u8> = (0..LONGEST).map(|n| n as u8).collect();
        for length in [0, 1, 57, 58, 116, 117, LONGEST] {
            let mut read = Vec::new();
            for (index, packet) in cut(Channel(7), PING, &message[..length]).enumerate() {
                let payload = match Packet::read(&packet) {
                    Packet::Opening(opening) => {
                        assert_eq!((index, opening.command), (0, PING));
                        assert_eq!(usize::from(opening.length), length);
                        opening.payload
                    }
                    Packet::Continuation(next) => {
                        assert_eq!(usize::from(next.number) + 1, index);
                        next.payload
                    }
                };
                let used = part_carried(index, length).len();
                read.extend_from_slice(&payload[..used]);
                assert!(payload[used..].iter().all(|&byte| byte == 0));
            }
            assert_eq!(read, message[..length]);
        }
    }
}
