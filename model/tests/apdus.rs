//! APDUs and the MSG that carries them (request 2026-01): the program and the model against answers
//! that come from neither. It is known of each APDU how it was written, and so what it has to get,
//! alone and as the message of a host.

mod common;

use common::{agree, hex};
use model::apdu::{self, Good};
use model::bench::Bench;
use model::packet::{cut, Channel, CANCEL, LONGEST, MSG, PACKET};
use model::trial::apdus::{self, Apdu, FAULTS, HEADER};
use model::trial::cases::Cases;
use model::trial::random::Random;
use model::trial::run::seed_or;

const HOST: Channel = Channel(1);
const STRANGER: Channel = Channel(2);

/// An APDU and its status; none where it is good.
type Known = (Vec<u8>, Option<u16>);

/// The model answers as expected, and the program as the model.
fn hold(cases: Cases) {
    assert_eq!(cases.wrong_answer::<Bench>(), None);
    agree(cases.lines);
}

/// Reads these APDUs alone.
fn read_alone(apdus: impl IntoIterator<Item = Known>) {
    let mut cases = Cases::default();
    for (apdu, status) in apdus {
        let line = format!("apdu {}", hex(&apdu)).trim_end().to_string();
        let answer = status.map_or("good".to_string(), |status| format!("status {status:04x}"));
        cases.push(line, answer);
    }
    hold(cases);
}

/// For every set of faults this many APDUs that have just these, with the status of the first.
fn with_every_set_of_faults(seed: u64, count: usize) -> Vec<Known> {
    let mut random = Random::new(seed_or(0).wrapping_add(seed));
    let mut apdus = Vec::new();
    for set in 0..1 << FAULTS.len() {
        for _ in 0..count {
            let mut apdu = apdus::good(&mut random);
            let mut first = None;
            for (number, (plant, status)) in FAULTS.into_iter().enumerate() {
                if set >> number & 1 != 0 {
                    plant(&mut random, &mut apdu);
                    first = first.or(Some(status));
                }
            }
            apdus.push((apdu.written(), first));
        }
    }
    apdus
}

/// An APDU of these header bytes, with this much of data that adds up.
fn of_header(class: u8, instruction: u8, fifth: u8, data: u8) -> Vec<u8> {
    let header = vec![class, instruction, 0x5A, 0xA5, fifth, 0, data];
    [header, vec![0x61; usize::from(data)]].concat()
}

#[test]
fn a_good_apdu_has_its_data_and_reply_length() {
    let mut random = Random::new(seed_or(0).wrapping_add(30));
    let taken = |apdu: &Apdu, data: usize, reply_length| {
        let data = &apdu.rest[..data];
        assert_eq!(apdu::read(&apdu.written()), Ok(Good { data, reply_length }));
    };
    for data in (0..400).chain([LONGEST - 9, LONGEST - 7, 9_000]) {
        let apdu = apdus::good_of(&mut random, HEADER + data, 0);
        taken(&apdu, data, None);
        let mut apdu = apdus::good_of(&mut random, HEADER + data + 2, 2);
        for reply_length in [0, 1, 0x0100, 0xFFFF] {
            apdu.rest[data..].copy_from_slice(&u16::to_be_bytes(reply_length));
            taken(&apdu, data, Some(reply_length));
        }
    }
}

#[test]
fn the_data_is_a_part_of_the_message() {
    let message = of_header(0, 1, 0, 3);
    let good = apdu::read(&message).expect("a good APDU");
    assert_eq!(good.data.as_ptr_range(), message[HEADER..].as_ptr_range());
}

#[test]
fn the_first_fault_decides() {
    read_alone(with_every_set_of_faults(31, 200));
}

#[test]
fn under_seven_bytes_comes_first() {
    let whole = with_every_set_of_faults(32, 20);
    read_alone(whole.iter().flat_map(|(apdu, _)| {
        let cut = |size| (apdu[..size].to_vec(), Some(0x6700));
        (0..HEADER).map(cut)
    }));
}

#[test]
fn every_class_and_instruction() {
    let good = |instruction| (1..=3).contains(&instruction);
    read_alone((0..=0xFF_u8).flat_map(|class| {
        let last = if class < 2 { 0xFF } else { 5 };
        (0..=last).map(move |instruction| {
            let status = match (class, good(instruction)) {
                (0, true) => None,
                (0, false) => Some(0x6D00),
                _ => Some(0x6E00),
            };
            (of_header(class, instruction, 0, 1), status)
        })
    }));
}

#[test]
fn every_fifth_byte() {
    read_alone((0..=0xFF).flat_map(|fifth| {
        let status = (fifth != 0).then_some(0x6700);
        [
            (of_header(0, 1, fifth, 0), status),
            (of_header(0, 3, fifth, 5), status),
            (of_header(0, 4, fifth, 5), Some(0x6D00)),
            (of_header(1, 3, fifth, 5), Some(0x6E00)),
        ]
    }));
}

/// An APDU of `size` bytes whose length bytes say `length`.
fn of_size(size: usize, length: u16) -> Known {
    let mut apdu = of_header(0, 2, 0, 0);
    apdu[5..].copy_from_slice(&length.to_be_bytes());
    apdu.resize(size, 0);
    let adds_up = [7, 9].map(|more| more + usize::from(length));
    (apdu, (!adds_up.contains(&size)).then_some(0x6700))
}

#[test]
fn every_size_beside_every_length() {
    let lengths = || (0..=40).chain(0xFFD8..=0xFFFF).chain([0x0100, 0x0200]);
    read_alone((HEADER..=50).flat_map(|size| lengths().map(move |length| of_size(size, length))));
}

#[test]
fn every_length_near_a_large_size() {
    let sizes = [262, 263, 264, 265, 518, 519, 7_607, 7_608, LONGEST];
    let longer = [LONGEST + 1, LONGEST + 2, 8_000, 9_000];
    read_alone(sizes.into_iter().chain(longer).flat_map(|size| {
        let near = size as u16 - 14..=size as u16;
        near.map(move |length| of_size(size, length))
    }));
}

/// A host that sends APDUs as messages, while a stranger knocks after every packet.
struct Play {
    cases: Cases,
    ticket: u32,
}

impl Play {
    /// Two channels are given.
    fn new() -> Play {
        let mut cases = Cases::default();
        cases.push("state 2 0 idle".to_string(), "");
        Play { cases, ticket: 0 }
    }

    fn packet(&mut self, packet: &[u8; PACKET], answer: &str) {
        let line = format!("packet {}", hex(packet));
        self.cases.push(line, answer);
    }

    /// The host's opening packet without payload.
    fn opening(&mut self, command: u8, length: u16, answer: &str) {
        let mut packet = [0; PACKET];
        packet[..4].copy_from_slice(&HOST.0.to_be_bytes());
        packet[4] = 0x80 | command;
        packet[5..7].copy_from_slice(&length.to_be_bytes());
        self.packet(&packet, answer);
    }

    /// The stranger's APDU is good, and finds the key busy.
    fn knock(&mut self) {
        let busy = reply(&[0, 0, 0, 2, 0xBF, 0, 1, 0x06]);
        for packet in cut(STRANGER, MSG, &of_header(0, 3, 0, 0)) {
            self.packet(&packet, &busy);
        }
    }

    /// Sends a message; its last packet gets this answer.
    fn send(&mut self, message: &[u8], answer: &str) {
        let mut packets = cut(HOST, MSG, message).peekable();
        while let Some(packet) = packets.next() {
            let is_last = packets.peek().is_none();
            self.packet(&packet, if is_last { answer } else { "ok" });
            self.knock();
        }
    }

    fn deliver(&mut self, ticket: u32, bytes: &[u8], answer: &str) {
        let line = format!("deliver {ticket} {}", hex(bytes));
        self.cases.push(line.trim_end().to_string(), answer);
    }

    fn fetch(&mut self, answer: &str) {
        self.cases.push("fetch".to_string(), answer);
    }

    /// Shows the key in this phase with these first bytes of the message buffer.
    fn show(&mut self, phase: &str, message: &[u8]) {
        self.cases.push("reply 0".to_string(), "");
        self.cases.push(format!("message {}", message.len()), "");
        let state = format!("state 2 {} {phase}", self.ticket);
        let shown = format!("{state}\nreply -\nmessage {}", hex(message));
        self.cases.push("show".to_string(), shown);
        self.cases.push("reply 64".to_string(), "");
        self.cases.push("message 7609".to_string(), "");
    }

    /// A good APDU waits, whatever CANCEL says, until the core has delivered two bytes or more.
    fn good(&mut self, apdu: &[u8], delivery: &[u8]) {
        self.ticket += 1;
        let ticket = self.ticket;
        self.send(apdu, &format!("ok ticket {ticket}"));
        self.opening(CANCEL, 0, "ok");
        self.deliver(ticket + 1, &delivery[..1], "refused 5");
        self.deliver(ticket, &delivery[..1], "refused 6");
        self.deliver(ticket, &[], "refused 6");
        self.deliver(ticket, &[0x61; LONGEST + 1], "refused 6");
        self.show(&format!("waiting 1 3 {}", apdu.len()), apdu);
        self.deliver(ticket, delivery, "ok");
        self.answered(delivery, apdu);
    }

    /// A bad APDU gets our own two bytes.
    fn bad(&mut self, apdu: &[u8], status: u16) {
        self.send(apdu, "ok");
        self.answered(&status.to_be_bytes(), apdu);
    }

    /// The answer stands over the first bytes of the APDU, and is fetched in one packet.
    fn answered(&mut self, answer: &[u8], apdu: &[u8]) {
        let behind = apdu.get(answer.len()..).unwrap_or_default();
        let phase = format!("answering 1 3 {} 0", answer.len());
        self.opening(CANCEL, 0, "ok");
        self.show(&phase, &[answer, behind].concat());
        let header = [0, 0, 0, 1, 0x83, 0, answer.len() as u8];
        self.fetch(&reply(&[&header, answer].concat()));
        self.fetch("refused 4");
    }
}

/// A reply packet that begins with these bytes; the others are zeros.
fn reply(start: &[u8]) -> String {
    format!("ok reply {:0<128}", hex(start))
}

#[test]
fn apdus_as_messages() {
    let mut random = Random::new(seed_or(0).wrapping_add(33));
    let mut play = Play::new();
    for (apdu, status) in with_every_set_of_faults(34, 20) {
        let size = 1 + random.below(HEADER - 1);
        play.bad(&apdu[..size], 0x6700);
        let length = random.pick(&[2, 3, 10, 57]);
        let delivery = random.bytes(length);
        match status {
            None => play.good(&apdu, &delivery),
            Some(status) => play.bad(&apdu, status),
        }
    }
    hold(play.cases);
}

#[test]
fn a_msg_of_no_bytes_or_too_many() {
    let mut play = Play::new();
    let invalid_length = reply(&[0, 0, 0, 1, 0xBF, 0, 1, 0x03]);
    for length in [0, LONGEST as u16 + 1, 8_192, 0xFFFF] {
        play.opening(MSG, length, &invalid_length);
        play.fetch("refused 4");
    }
    play.opening(MSG, LONGEST as u16, "ok");
    play.knock();
    hold(play.cases);
}
