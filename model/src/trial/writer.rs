//! Writes scripts for the bench.
//!
//! The writer runs the model beside it, so that it knows whose turn it is: it can send the
//! continuation that is expected, or one that is not, and steps of time around what is left. What
//! the model answers is kept as the answer the program has to give.

use super::apdus;
use super::commands;
use super::item;
use super::random::Random;
use super::script::Script;
use super::states;
use super::tally::Tally;
use crate::bench::{self, Bench};
use crate::line::{self, Line, MESSAGE_BUFFER, REPLY_BUFFER};
use crate::packet::{LONGEST, PACKET};

/// Lines that are none of the protocol's.
const BAD: [&str; 43] = [
    "nonsense",
    "packet 0",
    "packet 0g",
    "packet 000",
    "packet 00 00",
    "packet  00",
    "packet  ",
    "PACKET 00",
    "packets",
    "time",
    "time -1",
    "time +1",
    "time 1a",
    "time 4294967296",
    "time 99999999999999999999",
    "time 18446744073709551616",
    "time 1 1",
    "deliver",
    "deliver x 00",
    "deliver 4294967296 00",
    "deliver 1 0",
    "deliver 1 00 00",
    "fetch 1",
    " fetch",
    "fetch\t",
    "show 1",
    "check 0",
    "check 00 00",
    "item",
    "item 5 00",
    "item 00",
    "apdu 0",
    "apdu 0g",
    "apdu 00 00",
    "apdus 00",
    "reply",
    "reply 129",
    "message 8193",
    "message x",
    "state 1 1",
    "state 1 1 idle 1",
    "state 1 1 gathering 1 16 58 1",
    "state 4294967296 1 idle",
];

/// Writes a script of about this many events: packets, time steps, deliveries, fetches, and
/// commands, items and APDUs to check.
pub fn write_script(seed: u64, events: usize) -> (Script, Tally) {
    let mut writer = Writer {
        random: Random::new(seed),
        bench: Bench::default(),
        script: Script::default(),
        tally: Tally::default(),
        events: 0,
        message: Vec::new(),
        calm: true,
    };
    while writer.events < events {
        writer.step();
    }
    writer.show_all();
    (writer.script, writer.tally)
}

/// How many events a script of this seed has: most scripts are long, some are short.
pub fn events_of(seed: u64) -> usize {
    Random::new(!seed).pick(&[30, 300, 3_000, 6_000])
}

pub(super) struct Writer {
    pub(super) random: Random,
    pub(super) bench: Bench,
    script: Script,
    tally: Tally,
    events: usize,
    /// What the holder is sending.
    pub(super) message: Vec<u8>,
    /// Whether nothing is to end the transaction early.
    pub(super) calm: bool,
}

impl Writer {
    fn step(&mut self) {
        match self.random.below(400) {
            0..=4 => self.bad_line(),
            5..=9 => self.with_other_buffers(),
            10..=14 if !self.calm || self.holder().is_none() => self.other_state(),
            15..=39 => self.check(),
            40..=54 => self.item(),
            55..=64 => self.apdu(),
            _ => self.event(),
        }
        match self.random.below(120) {
            0 => self.show_all(),
            1..=45 => self.peek(),
            _ => {}
        }
    }

    /// Adds a line, and counts it if it is an event.
    pub(super) fn line(&mut self, line: String) {
        let before = self.bench.key;
        let event = line::read(line.as_bytes());
        let answer = self.script.push(&mut self.bench, line);
        if let Some(event) = event {
            let is_event = matches!(
                event,
                Line::Packet(_)
                    | Line::Time(_)
                    | Line::Deliver(..)
                    | Line::Fetch
                    | Line::Check(_)
                    | Line::Item(..)
                    | Line::Apdu(_)
            );
            if is_event {
                self.events += 1;
                let answer = String::from_utf8_lossy(answer);
                self.tally.count(&before, &event, &answer, &self.bench);
            }
        }
    }

    /// A line of these words and these bytes; where there are none, the space before them can be
    /// missing too.
    pub(super) fn words(&mut self, words: &str, bytes: &[u8]) {
        let mut line = words.as_bytes().to_vec();
        if !bytes.is_empty() || self.random.once_in(2) {
            line.push(b' ');
            line::encode(bytes, &mut line);
            if self.random.once_in(16) {
                line[words.len()..].make_ascii_uppercase();
            }
        }
        self.line(String::from_utf8_lossy(&line).into_owned());
    }

    /// Lends this much of the buffers.
    fn lend(&mut self, reply: usize, message: usize) {
        if self.bench.reply_lent != reply {
            self.line(format!("reply {reply}"));
        }
        if self.bench.message_lent != message {
            self.line(format!("message {message}"));
        }
    }

    /// Shows the whole of both buffers.
    fn show_all(&mut self) {
        self.show(REPLY_BUFFER, MESSAGE_BUFFER);
    }

    /// Shows the state and the beginnings of the buffers, which costs little.
    fn peek(&mut self) {
        let held = self.bench.key.transaction.message();
        let part = held.map_or(0, |message| usize::from(message.length));
        let message = self.random.pick(&[0, 1, 70, part.min(200) + 1]);
        self.show(PACKET, message);
    }

    fn show(&mut self, reply: usize, message: usize) {
        let lent = (self.bench.reply_lent, self.bench.message_lent);
        self.lend(reply, message);
        self.line("show".to_string());
        self.lend(lent.0, lent.1);
    }

    fn check(&mut self) {
        let mut message = commands::command(&mut self.random);
        if self.random.once_in(30) {
            let size = self.random.pick(&[0, LONGEST, LONGEST + 1, 8_000, 9_000]);
            message.resize(size, 0);
        }
        self.words("check", &message);
    }

    fn item(&mut self) {
        let random = &mut self.random;
        let levels = random.below(5);
        let mut tree = match random.below(3) {
            0 => item::canonical(random, levels),
            1 => {
                let depth = random.below(7);
                item::nested(random, depth)
            }
            _ => item::nested(random, levels),
        };
        if random.once_in(3) {
            item::damage(random, &mut tree);
        }
        let mut bytes = tree.encoded();
        match random.below(6) {
            0 => item::damage_bytes(random, &mut bytes),
            1 => {
                let more = random.below(9);
                bytes.extend_from_slice(&random.bytes(more));
            }
            _ => {}
        }
        self.words(&format!("item {levels}"), &bytes);
    }

    /// An APDU alone, which can be longer than any message.
    fn apdu(&mut self) {
        let random = &mut self.random;
        let bytes = if random.once_in(30) {
            let size = random.pick(&[LONGEST + 1, LONGEST + 2, 8_000, 9_000]);
            let reply_length = random.pick(&[0, 2]);
            apdus::good_of(random, size, reply_length).written()
        } else {
            apdus::any(random)
        };
        self.words("apdu", &bytes);
    }

    /// A line that is none of the protocol's, or one that is passed over.
    fn bad_line(&mut self) {
        match self.random.below(60) {
            0 => self.words("packet", &[0x5A; 8_001]),
            1 => self.words("deliver 1", &[0x5A; 8_001]),
            2 => self.words("check", &[0x5A; 10_001]),
            3 => self.line(String::new()),
            4 => self.line("# a line to pass over".to_string()),
            5 => self.line("x".repeat(50_000)),
            6 => self.words("apdu", &[0x5A; 10_001]),
            _ => {
                let line = self.random.pick(&BAD);
                self.line(line.to_string());
            }
        }
    }

    /// A few events with more or less of the buffers lent.
    fn with_other_buffers(&mut self) {
        let reply = self.random.pick(&[0, 1, 63, 64, 65, 128]);
        let message = self.random.pick(&[0, 1, 7_608, 7_609, 7_610, 8_192]);
        self.lend(reply, message);
        for _ in 0..=self.random.below(3) {
            if self.random.once_in(2) {
                self.event();
            } else {
                self.stray_event();
            }
        }
        self.peek();
        self.lend(PACKET, LONGEST);
    }

    /// Puts the key into a state that is out of order and makes calls on it, or into one that is
    /// in order, as after many events.
    fn other_state(&mut self) {
        if self.random.once_in(2) {
            let key = states::out_of_order(&mut self.random);
            self.line(bench::state(&key));
            if self.random.once_in(3) {
                let (reply, message) = self.random.pick(&[(63, 7_609), (64, 7_608), (0, 0)]);
                self.lend(reply, message);
            }
            for _ in 0..=self.random.below(3) {
                self.stray_event();
            }
            self.lend(PACKET, LONGEST);
            self.peek();
        }
        let key = states::in_order(&mut self.random);
        self.line(bench::state(&key));
        self.calm = self.random.once_in(2);
        if self.random.once_in(2) {
            // The next channel is often one at a bound, whatever the phase.
            self.greeting();
        }
    }
}
