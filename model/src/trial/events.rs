//! The events of a script: packets of the holder and of strangers, time, and the core.

use super::apdus;
use super::commands;
use super::writer::Writer;
use super::LENGTHS;
use crate::key::{Transaction, GATHERING_TIME};
use crate::packet::{
    part_carried, write, Channel, BROADCAST, CANCEL, CBOR, INIT, LONGEST, MSG, PACKET, PING,
};

impl Writer {
    /// The next event of a story that goes on: a transaction that is opened, gathered, delivered
    /// and fetched, with others in between.
    pub(super) fn event(&mut self) {
        let calm = self.calm;
        match self.bench.key.transaction {
            Transaction::Idle => match self.random.below(16) {
                _ if self.bench.key.channels < 2 => self.greeting(),
                0..=8 => self.opening(),
                9 => self.refused_opening(),
                10 => self.greeting(),
                _ => self.harmless_event(),
            },
            Transaction::Gathering { message, .. } => match self.random.below(20) {
                0 | 1 => self.harmless_event(),
                2 if !calm => self.wrong_continuation(message.holder),
                3 if !calm => self.time_around_the_end(),
                4 if !calm => self.packet_of_holder(message.holder),
                _ => self.next_continuation(),
            },
            Transaction::Waiting { message } => match self.random.below(12) {
                0..=3 => self.harmless_event(),
                4 => self.cancel(message.holder),
                5 if !calm => self.packet_of_holder(message.holder),
                6 => self.wrong_delivery(),
                _ => self.good_delivery(),
            },
            Transaction::Answering { message, .. } => match self.random.below(20) {
                0..=2 => self.harmless_event(),
                3 if !calm => self.packet_of_holder(message.holder),
                _ => self.line("fetch".to_string()),
            },
        }
    }

    /// An event that leaves the transaction as it is.
    fn harmless_event(&mut self) {
        let holder = self.holder();
        match self.random.below(16) {
            0..=8 => self.packet_of_stranger(holder),
            9 => self.packet_of_another_size(),
            10 => {
                let most = match self.bench.key.transaction {
                    Transaction::Gathering { left, .. } => left as usize,
                    _ => 10_000,
                };
                let elapsed = self.random.below(most.div_ceil(4));
                self.line(format!("time {elapsed}"));
            }
            11 => self.line("time 0".to_string()),
            12 if !matches!(self.bench.key.transaction, Transaction::Answering { .. }) => {
                self.line("fetch".to_string());
            }
            13 if !matches!(self.bench.key.transaction, Transaction::Waiting { .. }) => {
                self.wrong_delivery();
            }
            14 => match (holder, self.bench.key.transaction) {
                (Some(holder), Transaction::Waiting { .. } | Transaction::Answering { .. }) => {
                    let number = self.random.below(128) as u8;
                    self.continuation(holder, number);
                }
                (Some(holder), Transaction::Gathering { .. }) => self.cancel(holder),
                _ => self.packet_of_stranger(holder),
            },
            _ => self.packet_of_stranger(holder),
        }
    }

    /// Any event, whatever the state.
    pub(super) fn stray_event(&mut self) {
        let channel = self.random.pick(&[BROADCAST, Channel(1), Channel(2)]);
        match self.random.below(7) {
            0 => self.line("fetch".to_string()),
            1 => self.wrong_delivery(),
            2 => self.good_delivery(),
            3 => {
                let elapsed = self.random.pick(&[0, 1, 3_000, u32::MAX]);
                self.line(format!("time {elapsed}"));
            }
            4 => self.packet_of_another_size(),
            5 => self.continuation(channel, 0),
            _ => self.any_opening(channel),
        }
    }

    pub(super) fn holder(&self) -> Option<Channel> {
        let held = self.bench.key.transaction.message();
        held.map(|message| message.holder)
    }

    /// Whether the transaction is a MSG, to which a delivery has two bytes at least.
    fn is_msg(&self) -> bool {
        let held = self.bench.key.transaction.message();
        held.is_some_and(|message| message.command == MSG)
    }

    /// A channel that is given, often one of the first few.
    fn given_channel(&mut self) -> Channel {
        let channels = self.bench.key.channels.max(1);
        let any = 1 + self.random.below(channels as usize) as u32;
        let early = 1 + self.random.below(channels.min(4) as usize) as u32;
        Channel(self.random.pick(&[early, early, any, channels]))
    }

    /// A channel that is not given: the next one, one that is channel 1 to a program that reads
    /// half of it or the bytes the other way round, or a high one. Of a full key it is 0.
    fn unknown_channel(&mut self) -> Channel {
        let channels = self.bench.key.channels;
        let next = channels.saturating_add(1);
        let high = (self.random.number() >> 32) as u32 | 1 << 31;
        let channel =
            self.random
                .pick(&[0, next, next, 0x0001_0001, 0x0100_0000, 0xFFFF_FFFE, high]);
        if channel <= channels || channel == BROADCAST.0 {
            return Channel(0);
        }
        Channel(channel)
    }

    fn random_command(&mut self) -> u8 {
        let any = self.random.below(128) as u8;
        self.random
            .pick(&[PING, CBOR, INIT, CANCEL, MSG, 0x04, 0x08, 0x3B, 0x3F, any])
    }

    // Packets

    /// A packet that opens a message of `length` bytes; what the message leaves unused is random.
    fn opening_packet(&mut self, channel: Channel, command: u8, length: u16, payload: &[u8]) {
        let mut packet = [0; PACKET];
        if self.random.once_in(2) {
            self.random.fill(&mut packet);
        }
        packet[..4].copy_from_slice(&channel.0.to_be_bytes());
        packet[4] = command | 0x80;
        packet[5..7].copy_from_slice(&length.to_be_bytes());
        packet[7..][..payload.len()].copy_from_slice(payload);
        self.words("packet", &packet);
    }

    fn continuation(&mut self, channel: Channel, number: u8) {
        let packet = self.random.packet(channel, number & 0x7F);
        self.words("packet", &packet);
    }

    fn packet_of_another_size(&mut self) {
        let size = self.random.pick(&[0, 1, 4, 63, 63, 65, 65, 128, 8_000]);
        let mut packet = self.random.bytes(size);
        if size > 5 {
            let channel = self.given_channel();
            packet[..4].copy_from_slice(&channel.0.to_be_bytes());
        }
        self.words("packet", &packet);
    }

    /// Broadcast: a good INIT, or one of the other rows.
    pub(super) fn greeting(&mut self) {
        let nonce = self.random.bytes(8);
        match self.random.below(8) {
            0 => {
                let length = self.random.pick(&[0, 7, 9, 17, 57, 264, 0x0800, 65_535]);
                self.opening_packet(BROADCAST, INIT, length, &nonce);
            }
            1 => {
                let command = self.random_command();
                self.opening_packet(BROADCAST, command, 8, &nonce);
            }
            _ => self.opening_packet(BROADCAST, INIT, 8, &nonce),
        }
    }

    /// An opening that begins a transaction.
    fn opening(&mut self) {
        self.calm = self.random.once_in(2);
        let channel = self.given_channel();
        let command = self.random.pick(&[PING, CBOR, CBOR, MSG]);
        self.message = self.message_of(command);
        self.first_packet(channel, command, &self.message.clone());
    }

    /// The packet that opens this message.
    fn first_packet(&mut self, channel: Channel, command: u8, message: &[u8]) {
        let payload = &message[part_carried(0, message.len())];
        self.opening_packet(channel, command, message.len() as u16, payload);
    }

    /// A message that this command can open: only PING can have no bytes.
    fn message_of(&mut self, command: u8) -> Vec<u8> {
        let random = &mut self.random;
        let message = match command {
            PING => {
                let length = match random.below(3) {
                    0 => random.below(300),
                    _ => random.pick(&LENGTHS),
                };
                return random.bytes(length);
            }
            MSG => apdus::any(random),
            _ => commands::command(random),
        };
        if message.is_empty() {
            vec![0x04]
        } else {
            message
        }
    }

    /// An opening on an idle key that begins nothing.
    fn refused_opening(&mut self) {
        let channel = self.given_channel();
        let long = self.random.pick(&[7_610, 7_611, 8_192, 9_000, 65_535]);
        let any = self.random.below(128) as u8;
        match self.random.below(8) {
            0 => self.opening_packet(channel, PING, long, &[]),
            1 => self.opening_packet(channel, CBOR, long, &[]),
            2 => self.opening_packet(channel, CBOR, 0, &[]),
            3 => self.opening_packet(channel, any, long, &[]),
            4 => self.opening_packet(channel, MSG, long, &[]),
            5 => self.opening_packet(channel, MSG, 0, &[]),
            6 => {
                let length = self.random.pick(&[8, 8, 0, 7, 9, 264]);
                self.opening_packet(channel, INIT, length, &[]);
            }
            _ => {
                let command = self.random.pick(&[0, 2, 4, 8, 0x3B, 0x3F, 0x40, 0x7F, any]);
                self.opening_packet(channel, command, 1, &[]);
            }
        }
    }

    /// The continuation that is expected; what the message leaves unused is random.
    fn next_continuation(&mut self) {
        let Transaction::Gathering { message, done, .. } = self.bench.key.transaction else {
            return;
        };
        let length = usize::from(message.length);
        if self.message.len() != length {
            self.message = self.random.bytes(length);
        }
        let index = usize::from(done);
        let mut packet = [0; PACKET];
        write(
            &mut packet,
            message.holder,
            message.command,
            &self.message,
            index,
        );
        let used = 5 + part_carried(index, length).len();
        if self.random.once_in(2) {
            self.random.fill(&mut packet[used..]);
        }
        self.words("packet", &packet);
    }

    fn wrong_continuation(&mut self, holder: Channel) {
        let Transaction::Gathering { done, .. } = self.bench.key.transaction else {
            return;
        };
        let expected = (done as u8).wrapping_sub(1);
        let any = self.random.below(128) as u8;
        let number = self.random.pick(&[
            expected.wrapping_add(1),
            expected.wrapping_sub(1),
            0,
            127,
            any,
        ]);
        self.continuation(holder, number);
    }

    /// An opening or continuation of a channel that does not hold the key.
    fn packet_of_stranger(&mut self, holder: Option<Channel>) {
        let channel = match self.random.below(6) {
            0 => BROADCAST,
            1 | 2 => self.unknown_channel(),
            _ => self.given_channel(),
        };
        if Some(channel) == holder {
            return self.greeting();
        }
        match self.random.below(4) {
            0 => {
                let number = match self.bench.key.transaction {
                    Transaction::Gathering { done, .. } => (done as u8).wrapping_sub(1),
                    _ => self.random.below(128) as u8,
                };
                self.continuation(channel, number);
            }
            1 if holder.is_none() => self.cancel(channel),
            _ if holder.is_none() && channel != BROADCAST => {
                let channel = self.unknown_channel();
                self.any_opening(channel);
            }
            _ => self.any_opening(channel),
        }
    }

    /// An opening or continuation of the holder out of its turn.
    fn packet_of_holder(&mut self, holder: Channel) {
        match self.random.below(4) {
            0 => {
                let number = self.random.below(128) as u8;
                self.continuation(holder, number);
            }
            1 => {
                let length = self.random.pick(&[8, 0, 7, 9]);
                self.opening_packet(holder, INIT, length, &[]);
            }
            _ => self.any_opening(holder),
        }
    }

    fn any_opening(&mut self, channel: Channel) {
        let command = self.random_command();
        if command == MSG && self.random.once_in(2) {
            let apdu = apdus::any(&mut self.random);
            return self.first_packet(channel, command, &apdu);
        }
        let any = self.random.number() as u16;
        let length = self.random.pick(&[0, 1, 8, 8, 57, 58, 7_609, 7_610, any]);
        self.opening_packet(channel, command, length, &[]);
    }

    fn cancel(&mut self, channel: Channel) {
        let length = self.random.pick(&[0, 0, 1, 9_000]);
        self.opening_packet(channel, CANCEL, length, &[]);
    }

    // Time and the core

    fn time_around_the_end(&mut self) {
        let left = match self.bench.key.transaction {
            Transaction::Gathering { left, .. } => left,
            _ => GATHERING_TIME,
        };
        let elapsed = self.random.pick(&[
            left - 1,
            left - 1,
            left,
            left + 1,
            GATHERING_TIME,
            1 << 31,
            u32::MAX,
        ]);
        self.line(format!("time {elapsed}"));
    }

    fn good_delivery(&mut self) {
        let length = match self.random.below(3) {
            0 => self.random.pick(&LENGTHS[1..]),
            _ => 1 + self.random.below(150),
        };
        let least = 1 + usize::from(self.is_msg());
        let bytes = self.random.bytes(length.max(least));
        let ticket = self.bench.key.ticket.0;
        self.words(&format!("deliver {ticket}"), &bytes);
    }

    /// A delivery with a ticket that is not the current one, or of a length that is none.
    fn wrong_delivery(&mut self) {
        let ticket = self.bench.key.ticket.0;
        let (ticket, length) = match self.random.below(4) {
            0 if self.is_msg() => (ticket, self.random.pick(&[0, 1, 1, LONGEST + 1])),
            0 => (ticket, self.random.pick(&[0, LONGEST + 1, 8_000])),
            1 => {
                let any = self.random.number() as u32;
                (any, self.random.pick(&[0, 1, LONGEST + 1]))
            }
            2 => (ticket.wrapping_add(1), 1 + self.random.below(70)),
            _ => (ticket.wrapping_sub(1), 1 + self.random.below(70)),
        };
        let bytes = self.random.bytes(length);
        self.words(&format!("deliver {ticket}"), &bytes);
    }
}
