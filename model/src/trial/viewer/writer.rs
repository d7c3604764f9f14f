//! Writes scripts for the viewer's end.
//!
//! The writer runs the model beside it, so that it knows how far a reply is gathered and which
//! packet comes next. What the model answers is kept as the answer the program has to give.

use super::parts::{self, Parts};
use super::replies;
use super::tally;
use crate::line::encode;
use crate::packet::{Channel, BROADCAST, CBOR, ERROR, INIT, LONGEST, MSG, PING};
use crate::trial::random::Random;
use crate::trial::script::Script;
use crate::trial::tally::Tally;
use crate::trial::LENGTHS;
use crate::viewer::bench::ViewerBench;
use crate::viewer::line::{read, LONGEST_LINE};

/// Lines that are none of the protocol's.
const BAD: [&str; 45] = [
    "nonsense",
    "make ",
    "make  1=00",
    "make 1=00 ",
    "make 1",
    "make =00",
    "make 1==",
    "make 0=00",
    "make 10=00",
    "make 1=0",
    "make 1=0g",
    "make 1=00 2=a0 1=00",
    "make 1= 01=",
    "make -1=00",
    "make 18446744073709551617=00",
    "Make 1=00",
    "makes",
    "make1=00",
    "get 8=00",
    "get 0=",
    "get 2=00 2=00",
    "get 1=00 2",
    "room",
    "room ",
    "room 8193",
    "room -1",
    "room 18446744073709551616",
    "cut",
    "cut 1",
    "cut 1 128 00",
    "cut 4294967296 16 00",
    "cut 1 16 0",
    "cut 1 16 00 00",
    "cut 1 16 -",
    "await 1",
    "await 1 128",
    "await 1 16 ",
    "await 4294967296 16",
    "packet 0",
    "packet 0g",
    "packet 00 00",
    "apart 0",
    "walk 00 00",
    " walk 00",
    "check 04",
];

/// Writes a script of about this many events: commands to write, requests to cut, packets to gather
/// and replies to take apart.
pub fn write_script(seed: u64, events: usize) -> (Script, Tally) {
    let mut writer = Writer {
        random: Random::new(seed),
        model: ViewerBench::default(),
        script: Script::default(),
        tally: Tally::default(),
        events: 0,
        reply: Vec::new(),
        calm: 0,
    };
    while writer.events < events {
        writer.step();
    }
    (writer.script, writer.tally)
}

/// How many events a script of this seed has.
pub fn events_of(seed: u64) -> usize {
    Random::new(!seed).pick(&[30, 300, 1_000, 2_000])
}

pub(super) struct Writer {
    pub(super) random: Random,
    pub(super) model: ViewerBench,
    script: Script,
    tally: Tally,
    events: usize,
    /// What the key is sending.
    pub(super) reply: Vec<u8>,
    /// Until this many packets are here, nothing is to end the gathering.
    pub(super) calm: usize,
}

impl Writer {
    fn step(&mut self) {
        match self.random.below(100) {
            0..=3 => self.bad_line(),
            4..=5 => self.room(),
            6..=27 => self.command(),
            28..=33 => self.command_in_its_room(),
            34..=37 => self.cut(),
            38..=49 => self.taken_apart(),
            _ => self.packet_event(),
        }
    }

    /// Adds a line, and counts it if it is an event.
    pub(super) fn line(&mut self, line: String) {
        let (room, gathering) = (self.model.room, self.model.gathering);
        let read = read(line.as_bytes());
        let answer = String::from_utf8_lossy(self.script.push(&mut self.model, line));
        let case = read.and_then(|line| tally::case(room, gathering, &line, answer.trim_end()));
        if let Some(case) = case {
            self.events += 1;
            *self.tally.0.entry(case).or_default() += 1;
        }
    }

    /// A line of these words and these bytes; where there are none, the space before them can be
    /// missing too.
    pub(super) fn words(&mut self, words: &str, bytes: &[u8]) {
        let mut line = words.as_bytes().to_vec();
        if !bytes.is_empty() || self.random.once_in(2) {
            line.push(b' ');
            encode(bytes, &mut line);
            if self.random.once_in(16) {
                line[words.len()..].make_ascii_uppercase();
            }
        }
        self.line(String::from_utf8_lossy(&line).into_owned());
    }

    fn command(&mut self) {
        let parts = parts::any(&mut self.random);
        self.write(&parts);
    }

    /// A line that names these parts.
    fn write(&mut self, parts: &Parts) {
        let mut line = parts.word().as_bytes().to_vec();
        for (key, part) in &parts.named {
            // A key is one digit: with zeros before it the line is none.
            let zeros = if self.random.once_in(100) { "00" } else { "" };
            line.extend_from_slice(format!(" {zeros}{key}=").as_bytes());
            encode(part, &mut line);
        }
        self.line(String::from_utf8_lossy(&line).into_owned());
    }

    /// A command with about as much room as it takes.
    fn command_in_its_room(&mut self) {
        let parts = parts::any(&mut self.random);
        let size = parts.command().len();
        let before = self.model.room;
        let near = self
            .random
            .pick(&[0, 1, size - 1, size - 1, size, size, size + 1]);
        if near <= 8_192 {
            self.line(format!("room {near}"));
            self.write(&parts);
            self.line(format!("room {before}"));
        }
        self.write(&parts);
    }

    fn room(&mut self) {
        let any = self.random.below(8_193);
        let room = self
            .random
            .pick(&[LONGEST, LONGEST, LONGEST + 1, 8_192, any]);
        self.line(format!("room {room}"));
    }

    fn cut(&mut self) {
        let (channel, command) = (self.channel(), self.command_byte());
        let length = match self.random.below(12) {
            0 => self.random.pick(&[LONGEST, LONGEST + 1, 8_192, 12_000]),
            1..=4 => self.random.pick(&LENGTHS),
            _ => self.random.below(400),
        };
        let request = self.random.bytes(length);
        self.words(&format!("cut {} {command}", channel.0), &request);
    }

    /// A reply, taken apart and gone through.
    fn taken_apart(&mut self) {
        let reply = replies::any(&mut self.random);
        self.words("apart", &reply);
        self.words("walk", &reply);
    }

    /// Any channel, often a small one.
    pub(super) fn channel(&mut self) -> Channel {
        let any = self.random.number() as u32;
        Channel(
            self.random
                .pick(&[1, 1, 2, 7, 0, 0x0102_0304, 0xFFFF_FFFE, BROADCAST.0, any]),
        )
    }

    /// Any command, often CBOR.
    pub(super) fn command_byte(&mut self) -> u8 {
        let any = self.random.below(128) as u8;
        self.random
            .pick(&[CBOR, CBOR, CBOR, PING, MSG, INIT, ERROR, 0, 127, any])
    }

    /// A line that is none of the protocol's, or one that is passed over.
    fn bad_line(&mut self) {
        match self.random.below(60) {
            0 => self.line(String::new()),
            1 => self.line("# a line to pass over".to_string()),
            2 => self.line("x".repeat(90_000)),
            3 => self.longest_line(),
            _ => {
                let line = self.random.pick(&BAD);
                self.line(line.to_string());
            }
        }
    }

    /// A line that has about as many bytes as a line can, or a few too many.
    fn longest_line(&mut self) {
        let words = self.random.pick(&[
            "make 8=",
            "get 2=",
            "cut 1 16 ",
            "packet ",
            "apart ",
            "walk ",
            "#",
        ]);
        let bytes = (LONGEST_LINE - words.len()) / 2 + self.random.below(2);
        self.line(format!("{words}{}", "5a".repeat(bytes)));
    }
}
