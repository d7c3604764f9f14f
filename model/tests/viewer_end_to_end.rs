//! Requests on their whole way, by both real programs: the viewer's end writes and cuts them, the
//! key takes them while strangers knock, the core's replies go back, and the viewer's end gathers
//! them among other channels' packets and takes them apart.

use std::time::Instant;

use model::command::check;
use model::line::{decode, hex};
use model::packet::{
    packets_needed, Channel, BROADCAST, CANCEL, CBOR, INIT, LONGEST, PACKET, PING,
};
use model::trial::commands;
use model::trial::program::Program;
use model::trial::random::Random;
use model::trial::run::seed_or;
use model::trial::session::Session;
use model::trial::tree::Written;
use model::trial::viewer::parts::{self, Parts};
use model::trial::viewer::replies;

/// How many requests of each sort are sent.
const REQUESTS: usize = 600;

/// The status of a request that the viewer has given up.
const CANCELLED: u8 = 0x2D;
/// A command that the key does not have.
const UNKNOWN: u8 = 0x7F;

/// The viewer, the key, and hosts that share the key.
struct Room {
    random: Random,
    key: Session,
    viewer: Session,
    /// The viewer's channel.
    own: Channel,
    strangers: Vec<Channel>,
    /// How many lines both programs have answered.
    lines: u64,
}

/// Who answers a request.
enum Answered<'a> {
    /// The key itself does.
    ByTheKey,
    ByTheCore(&'a [u8]),
    /// Nobody, before the viewer gives up.
    Cancelled,
}

impl Room {
    /// Starts both programs; three hosts ask for channels, and the second is the viewer.
    fn open(seed: u64) -> Room {
        let found = |program: Result<Program, String>| {
            Session::start(&program.unwrap_or_else(|missing| panic!("{missing}")))
        };
        let mut room = Room {
            random: Random::new(seed_or(0).wrapping_add(seed)),
            key: found(Program::find()),
            viewer: found(Program::find_viewer()),
            own: BROADCAST,
            strangers: Vec::new(),
            lines: 0,
        };
        let [one, own, other] = [(); 3].map(|()| room.greet());
        room.own = own;
        room.strangers = vec![one, other];
        room
    }

    /// Ends both programs and shows how much they have done.
    fn close(self, begin: Instant, what: &str) {
        self.key.end();
        self.viewer.end();
        println!("{what}: {} lines in {:?}", self.lines, begin.elapsed());
    }

    fn key(&mut self, line: &str) -> String {
        self.lines += 1;
        self.key.ask(line)
    }

    fn viewer(&mut self, line: &str) -> String {
        self.lines += 1;
        self.viewer.ask(line)
    }

    /// The packets of a request, as the viewer's end cuts them.
    fn cut(&mut self, command: u8, request: &[u8]) -> Vec<String> {
        let line = format!("cut {} {command} {}", self.own.0, hex(request));
        let mut packets = vec![self.viewer(line.trim_end())];
        packets.extend((1..packets_needed(request.len())).map(|_| self.viewer.answer()));
        packets
    }

    /// A reply to this command is awaited on the viewer's channel.
    fn await_reply(&mut self, command: u8) {
        self.viewer.send(&format!("await {} {command}", self.own.0));
    }

    /// A new channel.
    fn greet(&mut self) -> Channel {
        let nonce = self.random.bytes(8);
        let greeting = self.cut(INIT, &nonce);
        self.await_reply(INIT);
        let answer = self.key(&greeting[0]);
        let whole = self.heard(&answer).expect("an INIT reply of one packet");
        assert_eq!(whole[..8], nonce);
        Channel(u32::from_be_bytes([
            whole[8], whole[9], whole[10], whole[11],
        ]))
    }

    /// The viewer hears the packet in the key's answer; the reply, where it is whole.
    fn heard(&mut self, answer: &str) -> Option<Vec<u8>> {
        let packet = packet_of(answer).unwrap_or_else(|| panic!("no packet but {answer}"));
        let gathered = self.viewer(&format!("packet {packet}"));
        match gathered.strip_prefix("whole ") {
            Some("-") => Some(Vec::new()),
            Some(whole) => decode(whole),
            None => {
                assert_eq!(gathered, "more");
                None
            }
        }
    }

    /// The key tells the viewer of an error.
    fn expect_error(&mut self, answer: &str, code: u8) {
        let packet = packet_of(answer).unwrap_or_else(|| panic!("no packet but {answer}"));
        let ended = self.viewer(&format!("packet {packet}"));
        assert_eq!(ended, format!("ended {code:02x}"));
    }

    /// Others send packets while the viewer holds the key. The viewer hears what they get, and
    /// other packets that are not for it.
    fn knock(&mut self) {
        for _ in 0..self.random.below(3) {
            let packet = self.packet_of_stranger();
            let answer = self.key(&format!("packet {}", hex(&packet)));
            if packet_of(&answer).is_some() {
                assert_eq!(self.heard(&answer), None);
            } else {
                assert_eq!(answer, "ok");
            }
        }
        if self.random.once_in(2) {
            let packet = self.packet_of_stranger();
            let gathered = self.viewer(&format!("packet {}", hex(&packet)));
            assert_eq!(gathered, "more");
        }
    }

    /// Any packet of another channel than the viewer's.
    fn packet_of_stranger(&mut self) -> [u8; PACKET] {
        let random = &mut self.random;
        let near = Channel(self.own.0 ^ 1 << random.below(32));
        let stranger = random.pick(&self.strangers);
        let channel = random.pick(&[stranger, stranger, near, BROADCAST, Channel(0)]);
        let mut packet = [0; PACKET];
        random.fill(&mut packet);
        packet[..4].copy_from_slice(&channel.0.to_be_bytes());
        let any = random.number() as u8;
        let [cbor, ping, init] = [CBOR, PING, INIT].map(|command| 0x80 | command);
        packet[4] = random.pick(&[0, 1, 2, cbor, ping, init, 0x80 | CANCEL, 0xBF, any]);
        let any = random.number() as u16;
        let length = random.pick(&[0, 1, 8, 8, 57, 117, 7_609, 7_610, any]);
        packet[5..7].copy_from_slice(&length.to_be_bytes());
        packet
    }

    /// Sends a request and gives the reply that is gathered.
    fn exchange(&mut self, command: u8, request: &[u8], answered: Answered) -> Vec<u8> {
        let packets = self.cut(command, request);
        self.await_reply(command);
        let mut last = String::new();
        for packet in packets {
            assert!(["", "ok"].contains(&&*last), "a packet got {last}");
            last = self.key(&packet);
            self.knock();
        }
        let ticket = last.strip_prefix("ok ticket ");
        if ticket.is_some() {
            self.handed(request);
        }
        match answered {
            Answered::ByTheKey => assert_eq!(last, "ok"),
            Answered::ByTheCore(reply) => {
                let ticket = ticket.expect("a ticket");
                let taken = self.key(&format!("deliver {ticket} {}", hex(reply)));
                assert_eq!(taken, "ok");
            }
            Answered::Cancelled => {
                assert!(ticket.is_some());
                let cancel = self.cut(CANCEL, &[]);
                assert_eq!(self.key(&cancel[0]), "ok");
            }
        }
        self.fetched()
    }

    /// The core is handed just this request, whatever the strangers sent.
    fn handed(&mut self, request: &[u8]) {
        self.key.send("reply 0");
        self.key.send(&format!("message {}", request.len()));
        let state = self.key("show");
        let waiting = format!("waiting {} {CBOR} {}", self.own.0, request.len());
        assert!(state.ends_with(&waiting), "{state}");
        assert_eq!(self.key.answer(), "reply -");
        assert_eq!(self.key.answer(), format!("message {}", hex(request)));
        self.key.send("reply 64");
        self.key.send(&format!("message {LONGEST}"));
    }

    /// Fetches packets until the reply is whole, and the key is idle then.
    fn fetched(&mut self) -> Vec<u8> {
        loop {
            self.knock();
            let answer = self.key("fetch");
            if let Some(whole) = self.heard(&answer) {
                assert_eq!(self.key("fetch"), "refused 4");
                return whole;
            }
        }
    }

    /// A good command goes to the core, and the core's reply comes back and is taken apart.
    fn good(&mut self, command: &[u8]) {
        if self.random.once_in(10) {
            let whole = self.exchange(CBOR, command, Answered::Cancelled);
            return self.status(&whole, CANCELLED);
        }
        let reply = replies::good(&mut self.random);
        let whole = self.exchange(CBOR, command, Answered::ByTheCore(&reply.bytes));
        assert_eq!(whole, reply.bytes);
        self.taken_apart(&reply);
    }

    /// A command that the key refuses gets this status.
    fn refused(&mut self, command: &[u8], status: u8) {
        let whole = self.exchange(CBOR, command, Answered::ByTheKey);
        self.status(&whole, status);
    }

    /// A reply is this status alone.
    fn status(&mut self, reply: &[u8], status: u8) {
        let bytes = vec![status];
        assert_eq!(reply, bytes);
        let spots = Vec::new();
        self.taken_apart(&Written { bytes, spots });
    }

    fn taken_apart(&mut self, reply: &Written) {
        let bytes = hex(&reply.bytes);
        assert_eq!(
            self.viewer(&format!("apart {bytes}")),
            replies::apart(reply)
        );
        let mut entry = self.viewer(&format!("walk {bytes}"));
        for expected in replies::walk(reply).lines() {
            assert_eq!(entry, expected);
            if entry != "end" {
                entry = self.viewer.answer();
            }
        }
    }

    /// What the viewer's end makes of these parts.
    fn write(&mut self, parts: &Parts) -> String {
        let named = parts.named.iter();
        let words: String = named
            .map(|(key, part)| format!(" {key}={}", hex(part)))
            .collect();
        self.viewer(&format!("{}{words}", parts.word()))
    }
}

/// The packet in an answer of the key.
fn packet_of(answer: &str) -> Option<&str> {
    answer.strip_prefix("ok reply ")
}

#[test]
fn good_parts_go_to_the_core() {
    let begin = Instant::now();
    let mut room = Room::open(80);
    for _ in 0..2 * REQUESTS {
        let parts = parts::good(&mut room.random);
        let answer = room.write(&parts);
        let command = parts.command();
        assert_eq!(answer, format!("bytes {}", hex(&command)));
        room.good(&command);
    }
    room.close(begin, "good parts");
}

#[test]
fn parts_get_the_status_that_the_key_gives() {
    let begin = Instant::now();
    let mut room = Room::open(81);
    for _ in 0..2 * REQUESTS {
        let parts = parts::well_formed(&mut room.random);
        let answer = room.write(&parts);
        let command = parts.command();
        if command.len() > LONGEST {
            let cut = format!("cut 1 16 {}", hex(&command));
            assert_eq!(room.viewer(&cut), "refused 8");
        } else if answer.starts_with("bytes ") {
            assert_eq!(answer, format!("bytes {}", hex(&command)));
            room.good(&command);
        } else {
            let status = answer.strip_prefix("refused ").and_then(decode);
            let status = status.unwrap_or_else(|| panic!("no status but {answer}"));
            room.refused(&command, status[0]);
        }
    }
    room.close(begin, "parts with faults");
}

#[test]
fn commands_of_any_bytes() {
    let begin = Instant::now();
    let mut room = Room::open(82);
    for _ in 0..2 * REQUESTS {
        let command = commands::command(&mut room.random);
        match check(&command) {
            // CBOR opens no request of no bytes.
            _ if command.is_empty() => {}
            Ok(_) => room.good(&command),
            Err(fault) => room.refused(&command, fault.status as u8),
        }
    }
    room.close(begin, "commands of any bytes");
}

#[test]
fn a_ping_comes_back() {
    let begin = Instant::now();
    let mut room = Room::open(83);
    for round in 0..REQUESTS {
        let length = match round % 50 {
            0 => room.random.pick(&[LONGEST - 1, LONGEST]),
            _ => room.random.below(300),
        };
        let request = room.random.bytes(length);
        let whole = room.exchange(PING, &request, Answered::ByTheKey);
        assert_eq!(whole, request);
    }
    room.close(begin, "pings");
}

#[test]
fn errors_end_the_gathering() {
    let begin = Instant::now();
    let mut room = Room::open(84);
    let get_info = [0x04];
    for _ in 0..REQUESTS {
        // A stranger holds the key until its INIT.
        let (own, stranger) = (room.own, room.random.pick(&room.strangers));
        room.own = stranger;
        let ping = room.cut(PING, &[0x61; 117]);
        let init = room.cut(INIT, &[0x62; 8]);
        room.own = own;
        assert_eq!(room.key(&ping[0]), "ok");
        let request = room.cut(CBOR, &get_info);
        room.await_reply(CBOR);
        let busy = room.key(&request[0]);
        room.expect_error(&busy, 0x06);
        assert!(packet_of(&room.key(&init[0])).is_some());
        // Time runs out.
        let long = room.cut(CBOR, &[0x01; 117]);
        room.await_reply(CBOR);
        assert_eq!(room.key(&long[0]), "ok");
        room.knock();
        assert_eq!(room.key("time 2999"), "ok");
        let late = room.key("time 1");
        room.expect_error(&late, 0x05);
        // A packet is lost on the way to the key.
        room.await_reply(CBOR);
        assert_eq!(room.key(&long[0]), "ok");
        room.knock();
        let lost = room.key(&long[2]);
        room.expect_error(&lost, 0x04);
        // The command is none of the key's.
        let unknown = room.cut(UNKNOWN, &get_info);
        room.await_reply(UNKNOWN);
        let refused = room.key(&unknown[0]);
        room.expect_error(&refused, 0x01);
        // After all that the key is as good as before.
        room.good(&get_info);
    }
    room.close(begin, "errors");
}
