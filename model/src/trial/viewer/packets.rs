//! The packets of a script: those of a reply, with others before, between and behind them.

use super::writer::Writer;
use crate::packet::{
    packets_needed, part_carried, write, Channel, BROADCAST, ERROR, LONGEST, PACKET,
};
use crate::trial::LENGTHS;
use crate::viewer::gathering::{Gathering, Progress};

impl Writer {
    /// The next event of a story that goes on: replies are awaited, gathered and ended early.
    pub(super) fn packet_event(&mut self) {
        let Some(gathering) = self.model.gathering else {
            return match self.random.below(4) {
                0 => self.continuation(BROADCAST, 0),
                1 => self.packet_of_another_size(),
                _ => self.awaited(),
            };
        };
        match gathering.progress() {
            Progress::Awaited => match self.random.below(16) {
                0 => self.packet_of_another_size(),
                1 | 2 => self.packet_of_another_channel(gathering),
                3 => {
                    let number = self.random.pick(&[0, 0, 1, 127]);
                    self.continuation(gathering.channel(), number);
                }
                4 | 5 if self.calm == 0 => self.any_opening(gathering),
                6 if self.calm == 0 => self.error(gathering.channel()),
                7 if self.calm == 0 => self.awaited(),
                _ => self.next_packet(gathering, 0),
            },
            Progress::Begun { done, .. } => match self.random.below(24) {
                0 => self.packet_of_another_size(),
                1 | 2 => self.packet_of_another_channel(gathering),
                3..=5 if self.calm <= done => self.wrong_continuation(gathering, done),
                6 if self.calm <= done => self.any_opening(gathering),
                7 if self.calm <= done => self.error(gathering.channel()),
                8 if self.calm <= done => self.awaited(),
                _ => self.next_packet(gathering, done),
            },
            Progress::Whole { .. } | Progress::Ended(_) => match self.random.below(8) {
                0 => self.packet_of_another_size(),
                1 => self.packet_of_another_channel(gathering),
                2 => self.any_opening(gathering),
                3 => self.error(gathering.channel()),
                4 => {
                    let number = self.random.below(128) as u8;
                    self.continuation(gathering.channel(), number);
                }
                _ => self.awaited(),
            },
        }
    }

    /// A reply is awaited, and how it will go is settled.
    fn awaited(&mut self) {
        let length = match self.random.below(4) {
            0 => self.random.pick(&LENGTHS),
            1 if self.random.once_in(4) => self.random.below(LONGEST),
            _ => self.random.below(300),
        };
        self.reply = self.random.bytes(length);
        let any = self.random.below(packets_needed(length));
        self.calm = self.random.pick(&[0, any, usize::MAX]);
        let (channel, command) = (self.channel(), self.command_byte());
        self.line(format!("await {} {command}", channel.0));
    }

    /// The packet of the reply of which `done` are sent; what the reply leaves unused is random.
    fn next_packet(&mut self, gathering: Gathering, done: usize) {
        // A gathering can have begun with another opening.
        if let Progress::Begun { length, .. } = gathering.progress() {
            if self.reply.len() != length {
                self.reply = self.random.bytes(length);
            }
        }
        let packet = self.packet_of_reply(gathering.channel(), gathering.command(), done);
        self.words("packet", &packet);
    }

    fn packet_of_reply(&mut self, channel: Channel, command: u8, index: usize) -> [u8; PACKET] {
        let mut packet = [0; PACKET];
        write(&mut packet, channel, command, &self.reply, index);
        let header = if index == 0 { 7 } else { 5 };
        let used = header + part_carried(index, self.reply.len()).len();
        if self.random.once_in(2) {
            self.random.fill(&mut packet[used..]);
        }
        packet
    }

    /// A packet that would be taken on the gathering's own channel, or would end it.
    fn packet_of_another_channel(&mut self, gathering: Gathering) {
        let own = gathering.channel();
        let bit = 1 << self.random.below(32);
        let any = self.channel().0;
        let turned = own.0.swap_bytes();
        let channel = self
            .random
            .pick(&[own.0 ^ bit, own.0 ^ bit, turned, BROADCAST.0, any]);
        let channel = Channel(if channel == own.0 { own.0 ^ 1 } else { channel });
        let index = match gathering.progress() {
            Progress::Begun { length, done } if self.reply.len() == length => done,
            _ => 0,
        };
        match self.random.below(4) {
            0 => self.error(channel),
            1 => {
                let number = self.random.below(128) as u8;
                self.continuation(channel, number);
            }
            _ => {
                let index = index.min(packets_needed(self.reply.len()) - 1);
                let packet = self.packet_of_reply(channel, gathering.command(), index);
                self.words("packet", &packet);
            }
        }
    }

    fn packet_of_another_size(&mut self) {
        let size = self.random.pick(&[0, 1, 4, 63, 63, 65, 65, 128, 9_000]);
        let mut packet = self.random.bytes(size);
        if let (Some(gathering), true) = (self.model.gathering, size > 5) {
            packet[..4].copy_from_slice(&gathering.channel().0.to_be_bytes());
        }
        self.words("packet", &packet);
    }

    /// An opening of the gathering's channel: of its command or another, of any length.
    fn any_opening(&mut self, gathering: Gathering) {
        let (own, near) = (gathering.command(), gathering.command() ^ 1);
        let any = self.command_byte();
        let command = self.random.pick(&[own, own, near, any]);
        let any = self.random.number() as u16;
        let length = self
            .random
            .pick(&[0, 1, 57, 58, 7_609, 7_610, 7_610, 65_535, any]);
        self.opening(gathering.channel(), command, length);
    }

    /// An error packet with any code, of any length.
    fn error(&mut self, channel: Channel) {
        let any = self.random.number() as u16;
        let length = self.random.pick(&[1, 1, 1, 0, 7_610, any]);
        self.opening(channel, ERROR, length);
    }

    fn opening(&mut self, channel: Channel, command: u8, length: u16) {
        let mut packet = self.random.packet(channel, command | 0x80);
        packet[5..7].copy_from_slice(&length.to_be_bytes());
        self.words("packet", &packet);
    }

    fn continuation(&mut self, channel: Channel, number: u8) {
        let packet = self.random.packet(channel, number & 0x7F);
        self.words("packet", &packet);
    }

    fn wrong_continuation(&mut self, gathering: Gathering, done: usize) {
        let expected = done as u8 - 1;
        let any = self.random.below(128) as u8;
        let (next, last) = (expected.wrapping_add(1), expected.wrapping_sub(1));
        let number = self.random.pick(&[next, last, 0, 0, 127, any]);
        self.continuation(gathering.channel(), number);
    }
}
