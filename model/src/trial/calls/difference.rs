//! What differs between two firmwares, and the least that shows it.
//!
//! A call's outcome is a function of the block and of what else is lent, so the one call with what
//! was lent to it is all that it takes to see a difference again. What is random in it is made less.

use std::fmt;

use super::lent::{make, Lent, Parts};
use super::Call;
use crate::firmware::{Calls, MODEL};
use crate::line::hex;
use crate::trial::shrink::{only, without_parts};

/// A call and what is lent to it.
#[derive(Clone, Debug)]
pub struct Scene {
    pub call: Call,
    pub parts: Parts,
    pub lent: Lent,
}

/// The word that a call answers, and what is lent as the call leaves it.
pub type Outcome = (u64, Lent);

impl Scene {
    fn played(&self, calls: &Calls) -> Outcome {
        let mut lent = self.lent.clone();
        let word = make(calls, &self.call, &mut lent, &self.parts);
        (word, lent)
    }

    fn differs(&self, subject: &Calls) -> bool {
        self.played(&MODEL) != self.played(subject)
    }

    /// The scene with zeros for what is not needed to show the difference: first of the message
    /// buffer, then of the bytes to read, which a delivery or a command loses instead.
    fn shortened(mut self, subject: &Calls) -> Scene {
        let message = self.lent.message.clone();
        self.lent.message = zeroed(&message, |message| {
            let lent = Lent {
                message,
                ..self.lent.clone()
            };
            Scene {
                lent,
                ..self.clone()
            }
            .differs(subject)
        });
        let shows = |bytes: Vec<u8>| self.with_bytes(bytes).differs(subject);
        let bytes = match self.call {
            Call::Packet(_) => zeroed(self.call.bytes(), shows),
            _ => without_parts(self.call.bytes().to_vec(), |bytes| shows(bytes.to_vec())),
        };
        self.with_bytes(bytes)
    }

    fn with_bytes(&self, bytes: Vec<u8>) -> Scene {
        let mut parts = self.parts;
        parts.input.length = bytes.len();
        Scene {
            call: self.call.with_bytes(bytes),
            parts,
            lent: self.lent.clone(),
        }
    }
}

/// These bytes with zeros for as many as `shows` can do without.
fn zeroed(bytes: &[u8], mut shows: impl FnMut(Vec<u8>) -> bool) -> Vec<u8> {
    let places = (0..bytes.len()).filter(|&place| bytes[place] != 0);
    let kept = without_parts(places.collect(), |kept| shows(only(bytes, kept)));
    only(bytes, &kept)
}

/// Where in a run an event stands.
#[derive(Clone, Copy, Debug)]
pub struct Event {
    /// The seed of its script, which is the first script of a run with that seed.
    pub seed: u64,
    /// Its number in that script.
    pub number: u64,
    /// How many events the run had, up to this one.
    pub in_all: u64,
}

/// Two firmwares that do not agree.
#[derive(Clone, Debug)]
pub struct Difference {
    pub event: Event,
    pub scene: Scene,
    pub model: Outcome,
    pub other: Outcome,
    /// Whether the scene shows it by itself, as it must with a firmware that keeps nothing.
    pub alone: bool,
}

impl Difference {
    /// The difference between two outcomes of a scene, shortened where that can be done.
    pub(super) fn of(subject: &Calls, event: Event, scene: Scene, seen: [Outcome; 2]) -> Self {
        let alone = scene.differs(subject);
        let (scene, [model, other]) = if alone {
            let scene = scene.shortened(subject);
            let outcomes = [scene.played(&MODEL), scene.played(subject)];
            (scene, outcomes)
        } else {
            (scene, seen)
        };
        Difference {
            event,
            scene,
            model,
            other,
            alone,
        }
    }

    /// The first byte that the two leave different: its buffer, its place from where the lent part
    /// begins, and both values.
    fn first_byte(&self) -> Option<String> {
        let (model, other) = (self.model.1.named(), self.other.1.named());
        let parts = self.scene.parts;
        let starts = [parts.block, parts.reply, parts.message, parts.input].map(|part| part.start);
        let mut buffers = model.into_iter().zip(other).zip(starts);
        buffers.find_map(|(((name, model), (_, other)), start)| {
            let at = (0..model.len()).find(|&at| model[at] != other[at])?;
            let (place, model, other) = (at as isize - start as isize, model[at], other[at]);
            Some(format!(
                "{name}, byte {place}: the model leaves {model:02x}, the firmware {other:02x}"
            ))
        })
    }
}

impl fmt::Display for Difference {
    fn fmt(&self, f: &mut fmt::Formatter) -> fmt::Result {
        let Event {
            seed,
            number,
            in_all,
        } = self.event;
        writeln!(
            f,
            "the firmware and the model differ (SEED={seed}, event {number} of its script, {in_all} in all)"
        )?;
        writeln!(f, "{}", self.scene)?;
        writeln!(f, "the model answers {:#018x}", self.model.0)?;
        writeln!(f, "and the firmware  {:#018x}", self.other.0)?;
        if !self.alone {
            writeln!(f, "made again, the call shows no difference: the firmware keeps something beside the block")?;
        }
        match self.first_byte() {
            None => write!(f, "both leave the same bytes"),
            Some(first) => write!(f, "{first}"),
        }
    }
}

/// The call, and what matters to it of what is lent.
impl fmt::Display for Scene {
    fn fmt(&self, f: &mut fmt::Formatter) -> fmt::Result {
        let Parts {
            block,
            reply,
            message,
            ..
        } = self.parts;
        let bytes = hex(block.of(&self.lent.block));
        writeln!(f, "    block, {} bytes lent: {bytes}", block.length)?;
        writeln!(f, "    reply, {} bytes lent", reply.length)?;
        let bytes = message.of(&self.lent.message);
        let used = bytes.iter().rposition(|&byte| byte != 0);
        let bytes = hex(&bytes[..used.map_or(0, |last| last + 1)]);
        writeln!(f, "    message, {} bytes lent: {bytes}00..", message.length)?;
        let (words, bytes) = (words(&self.call), hex(self.call.bytes()));
        write!(f, "    call: {words} {bytes}")
    }
}

/// A call in words, without its bytes.
fn words(call: &Call) -> String {
    match call {
        Call::Fresh => "fresh".to_string(),
        Call::Packet(_) => "packet".to_string(),
        Call::Time(elapsed) => format!("time {elapsed}"),
        Call::Deliver(ticket, _) => format!("deliver {}", ticket.0),
        Call::Fetch => "fetch".to_string(),
        Call::Check(_) => "check".to_string(),
    }
}
