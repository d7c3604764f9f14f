//! Calls beside a script's own: on other blocks, after which the key is as it was, and checks of
//! more commands.

use super::blocks;
use super::difference::Difference;
use super::lent::LONGEST_BLOCK;
use super::run::Trial;
use super::Call;
use crate::block::BLOCK;
use crate::key::Ticket;
use crate::line::{MESSAGE_BUFFER, REPLY_BUFFER};
use crate::packet::LONGEST;
use crate::trial::breaches::{self, Sound};
use crate::trial::commands;
use crate::trial::tree::Written;

impl Trial<'_> {
    /// A script's call on another block, at times a few more, and then the key as it was.
    pub(super) fn aside(&mut self, call: &Call) -> Result<(), Box<Difference>> {
        self.keep();
        self.other_block();
        if self.random.once_in(6) {
            self.other_buffers();
        }
        if self.random.once_in(8) {
            self.event(&Call::Fresh)?;
        }
        self.event(call)?;
        for _ in 0..self.random.below(3) {
            let elapsed = self.random.pick(&[0, 1, 2_999, 3_000, u32::MAX]);
            let next = match self.random.below(4) {
                0 => call,
                1 => &Call::Time(elapsed),
                2 => &self.delivery(),
                _ => &Call::Fetch,
            };
            self.event(next)?;
        }
        self.put_back();
        Ok(())
    }

    /// Lends another block, or less or more of the same.
    fn other_block(&mut self) {
        let length = match self.random.below(6) {
            0 => self.random.below(BLOCK),
            1 => self
                .random
                .pick(&[BLOCK - 1, BLOCK, BLOCK + 1, LONGEST_BLOCK]),
            _ => BLOCK + self.random.below(LONGEST_BLOCK - BLOCK + 1),
        };
        if !self.random.once_in(6) {
            let block = self.block();
            let other = blocks::other(&mut self.random, block);
            self.write_block(other);
        }
        self.parts.block.length = length;
    }

    /// Lends less or more of the other buffers.
    fn other_buffers(&mut self) {
        self.parts.reply.length = self.random.pick(&[0, 63, 64, 65, REPLY_BUFFER]);
        self.parts.message.length = self.random.pick(&[0, 7_608, 7_609, 7_610, MESSAGE_BUFFER]);
    }

    /// A delivery for the ticket that the block shows, whether or not it waits for one.
    fn delivery(&mut self) -> Call {
        let block = self.block();
        let ticket = u32::from_be_bytes([block[8], block[9], block[10], block[11]]);
        let length = self.random.pick(&[0, 1, 2, 57, 58, LONGEST, LONGEST + 1]);
        Call::Deliver(Ticket(ticket), self.random.bytes(length))
    }

    /// Checks of a command with its end cut off, and of one with a breach at one of its items.
    pub(super) fn more_checks(&mut self, command: &[u8]) -> Result<(), Box<Difference>> {
        let cut = self.random.below(command.len() + 1);
        self.event(&Call::Check(command[..cut].to_vec()))?;
        let sound = Sound::check(commands::good(&mut self.random));
        let Written { bytes, spots } = &sound.written;
        let spot = &spots[self.random.below(spots.len())];
        match breaches::any(&mut self.random, &sound, bytes, spot) {
            Some((broken, _)) => self.event(&Call::Check(broken)).map(drop),
            None => Ok(()),
        }
    }
}
