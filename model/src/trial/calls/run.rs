//! Plays scripts to the model and to another firmware side by side.
//!
//! Each side has its own set of buffers, with the same bytes in them. After every call all of both
//! sets is compared, which is cheap beside the writing of a script; so whatever either side has
//! changed where the other has not is seen at once, and the next call meets the same bytes again.

use std::time::Instant;

use super::difference::{Difference, Event, Scene};
use super::lent::{make, Lent, Parts};
use super::ways::Ways;
use super::Call;
use crate::block::{encode, BLOCK};
use crate::firmware::{is_ticketed, Calls, MODEL};
use crate::line::{self, Line};
use crate::packet::CBOR;
use crate::trial::random::Random;
use crate::trial::run::Enough;
use crate::trial::writer::{events_of, write_script};

/// How far a run has come.
#[derive(Clone, Debug, Default)]
pub struct Done {
    pub scripts: u64,
    pub events: u64,
    pub ways: Ways,
}

/// Plays the scripts of one seed after another until it is enough, and tells `progress` after each.
pub fn compare(
    subject: &Calls,
    seed: u64,
    enough: Enough,
    progress: impl Fn(&Done),
) -> Result<Done, Box<Difference>> {
    let begin = Instant::now();
    let mut done = Done::default();
    while !enough.is_reached(done.events, begin) {
        let mut trial = Trial::new(subject, seed.wrapping_add(done.scripts), done);
        trial.script()?;
        done = trial.done;
        done.scripts += 1;
        progress(&done);
    }
    Ok(done)
}

/// A script that is played to both sides.
pub(super) struct Trial<'a> {
    subject: &'a Calls,
    seed: u64,
    /// For what is beside the script, which has its own.
    pub(super) random: Random,
    pub(super) parts: Parts,
    model: Lent,
    other: Lent,
    /// Both sides before the last call.
    before: Lent,
    /// The key and what was lent before an aside.
    kept: (Lent, Parts),
    /// How many events the scripts before this one had.
    earlier: u64,
    done: Done,
}

impl<'a> Trial<'a> {
    fn new(subject: &'a Calls, seed: u64, done: Done) -> Self {
        let mut random = Random::new(seed.rotate_left(32));
        let parts = Parts::enough(&mut random);
        let lent = Lent::random(&mut random);
        Trial {
            subject,
            seed,
            random,
            parts,
            model: lent.clone(),
            other: lent.clone(),
            before: lent.clone(),
            kept: (lent, parts),
            earlier: done.events,
            done,
        }
    }

    /// Begins with a fresh key in a block of random bytes, and plays the script line by line.
    fn script(&mut self) -> Result<(), Box<Difference>> {
        let (script, _) = write_script(self.seed, events_of(self.seed));
        self.event(&Call::Fresh)?;
        for line in &script.lines {
            match line::read(line.as_bytes()) {
                Some(Line::LendReply(bytes)) => self.parts.reply.length = bytes,
                Some(Line::LendMessage(bytes)) => self.parts.message.length = bytes,
                Some(Line::State(key)) => self.write_block(encode(&key)),
                Some(line) => {
                    if let Some(call) = Call::of_line(line) {
                        self.call(&call)?;
                    }
                }
                None => {}
            }
        }
        Ok(())
    }

    /// A script's call, with what is beside it.
    fn call(&mut self, call: &Call) -> Result<(), Box<Difference>> {
        if self.random.once_in(2) {
            self.aside(call)?;
        }
        let word = self.event(call)?;
        match call {
            Call::Check(command) => self.more_checks(command),
            Call::Packet(_) if is_ticketed(word) => self.check_request(),
            _ => Ok(()),
        }
    }

    /// Checks the request that waits, as a core does that wants its hash.
    fn check_request(&mut self) -> Result<(), Box<Difference>> {
        let block = self.block();
        let length = usize::from(u16::from_be_bytes([block[18], block[19]]));
        let request = self.parts.message.of(&self.model.message)[..length].to_vec();
        match block[3] {
            CBOR => self.event(&Call::Check(request)).map(drop),
            _ => Ok(()),
        }
    }

    /// Makes a call on both sides and compares them; gives the word.
    pub(super) fn event(&mut self, call: &Call) -> Result<u64, Box<Difference>> {
        self.parts.input.length = call.bytes().len();
        self.before.copy_from(&self.model);
        let word = make(&MODEL, call, &mut self.model, &self.parts);
        let other = make(self.subject, call, &mut self.other, &self.parts);
        self.done.events += 1;
        if word == other && self.model == self.other {
            let ways = &mut self.done.ways;
            ways.count(call, &self.before, &self.parts, word, &self.model);
            return Ok(word);
        }
        Err(Box::new(self.difference(call, [word, other])))
    }

    /// The difference after a call that was answered with these words.
    fn difference(&self, call: &Call, [word, other]: [u64; 2]) -> Difference {
        let event = Event {
            seed: self.seed,
            number: self.done.events - self.earlier,
            in_all: self.done.events,
        };
        let scene = Scene {
            call: call.clone(),
            parts: self.parts,
            lent: self.before.clone(),
        };
        let seen = [(word, self.model.clone()), (other, self.other.clone())];
        Difference::of(self.subject, event, scene, seen)
    }

    /// The first 32 bytes of the block's buffer from where it is lent, whether or not all are lent.
    pub(super) fn block(&self) -> [u8; BLOCK] {
        let mut block = [0; BLOCK];
        block.copy_from_slice(&self.model.block[self.parts.block.start..][..BLOCK]);
        block
    }

    /// Puts a block into the place of the one that is there, on both sides.
    pub(super) fn write_block(&mut self, block: [u8; BLOCK]) {
        for lent in [&mut self.model, &mut self.other] {
            lent.block[self.parts.block.start..][..BLOCK].copy_from_slice(&block);
        }
    }

    /// Notes everything that is lent.
    pub(super) fn keep(&mut self) {
        self.kept.0.copy_from(&self.model);
        self.kept.1 = self.parts;
    }

    /// Puts everything back that was noted.
    pub(super) fn put_back(&mut self) {
        self.model.copy_from(&self.kept.0);
        self.other.copy_from(&self.kept.0);
        self.parts = self.kept.1;
    }
}
