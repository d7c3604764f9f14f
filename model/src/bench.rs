//! The key on the bench: a whole key on a pipe, with the line protocol of the program `bench`.

use crate::apdu;
use crate::cbor;
use crate::command::{self, Fault};
use crate::key::{Answer, Key, Message, Refusal, Transaction};
use crate::line::{self, Line, LONGEST_LINE, MESSAGE_BUFFER, REPLY_BUFFER};
use crate::packet::{LONGEST, PACKET};
use crate::pipe::{no_line, OnPipe};

/// A key and the buffers that are lent to it.
#[derive(Clone, Debug)]
pub struct Bench {
    pub key: Key,
    pub reply: Box<[u8; REPLY_BUFFER]>,
    pub message: Box<[u8; MESSAGE_BUFFER]>,
    /// How many bytes of the reply buffer are lent.
    pub reply_lent: usize,
    /// How many bytes of the message buffer are lent.
    pub message_lent: usize,
    lines: u64,
}

impl Default for Bench {
    fn default() -> Self {
        Bench {
            key: Key::default(),
            reply: Box::new([0; REPLY_BUFFER]),
            message: Box::new([0; MESSAGE_BUFFER]),
            reply_lent: PACKET,
            message_lent: LONGEST,
            lines: 0,
        }
    }
}

impl OnPipe for Bench {
    const LONGEST_LINE: usize = LONGEST_LINE;

    fn line(&mut self, line: &[u8], out: &mut Vec<u8>) {
        self.lines += 1;
        let Some(line) = line::read(line) else {
            return no_line(self.lines, out);
        };
        let reply = &mut self.reply[..self.reply_lent];
        let message = &mut self.message[..self.message_lent];
        match line {
            Line::Packet(packet) => {
                let answer = self.key.packet(&packet, reply, message);
                self.call(answer, out);
            }
            Line::Time(elapsed) => {
                let answer = self.key.time_step(elapsed, reply);
                self.call(answer, out);
            }
            Line::Deliver(ticket, bytes) => {
                let answer = self.key.deliver(ticket, &bytes, message);
                self.call(answer, out);
            }
            Line::Fetch => {
                let answer = self.key.fetch(reply, message);
                self.call(answer, out);
            }
            Line::Check(bytes) => check(&bytes, out),
            Line::Item(levels, bytes) => item(levels, &bytes, out),
            Line::Apdu(bytes) => apdu(&bytes, out),
            Line::LendReply(bytes) => self.reply_lent = bytes,
            Line::LendMessage(bytes) => self.message_lent = bytes,
            Line::State(key) => self.key = key,
            Line::Show => self.show(out),
            Line::Nothing => {}
        }
    }

    fn state_line(&self) -> Option<String> {
        Some(state(&self.key))
    }
}

impl Bench {
    /// A call's answer: `ok`, the ticket it reports and the packet it wrote, or its refusal.
    fn call(&self, answer: Result<Answer, Refusal>, out: &mut Vec<u8>) {
        match answer {
            Ok(Answer::Silent) => out.extend_from_slice(b"ok"),
            Ok(Answer::Request(ticket)) => {
                out.extend_from_slice(format!("ok ticket {}", ticket.0).as_bytes());
            }
            Ok(Answer::Reply) => {
                out.extend_from_slice(b"ok reply ");
                line::encode(&self.reply[..PACKET], out);
            }
            Err(refusal) => {
                out.extend_from_slice(format!("refused {}", refusal.number()).as_bytes());
            }
        }
        out.push(b'\n');
    }

    /// The state and what is lent of both buffers, a line each.
    fn show(&self, out: &mut Vec<u8>) {
        out.extend_from_slice(state(&self.key).as_bytes());
        for (name, lent) in [
            ("\nreply ", &self.reply[..self.reply_lent]),
            ("\nmessage ", &self.message[..self.message_lent]),
        ] {
            out.extend_from_slice(name.as_bytes());
            if lent.is_empty() {
                out.push(b'-');
            }
            line::encode(lent, out);
        }
        out.push(b'\n');
    }
}

/// The line that puts the key into this state.
pub fn state(key: &Key) -> String {
    let message = |message: Message| {
        let Message {
            holder,
            command,
            length,
        } = message;
        format!("{} {command} {length}", holder.0)
    };
    let transaction = match key.transaction {
        Transaction::Idle => "idle".to_string(),
        Transaction::Gathering {
            message: request,
            done,
            left,
        } => format!("gathering {} {done} {left}", message(request)),
        Transaction::Waiting { message: request } => format!("waiting {}", message(request)),
        Transaction::Answering {
            message: reply,
            done,
        } => format!("answering {} {done}", message(reply)),
    };
    format!("state {} {} {transaction}", key.channels, key.ticket.0)
}

/// The checking call's answer, with the place of the hash in the message.
fn check(message: &[u8], out: &mut Vec<u8>) {
    let answer = match command::check(message) {
        Err(fault) => refused(fault),
        Ok(good) => match good.hash_place(message) {
            None => "good\n".to_string(),
            Some(at) => format!("good hash {at}\n"),
        },
    };
    out.extend_from_slice(answer.as_bytes());
}

/// The length of the item at the start of the bytes.
fn item(levels: u8, bytes: &[u8], out: &mut Vec<u8>) {
    let answer = match cbor::item_length(bytes, levels) {
        Ok(length) => format!("item {length}\n"),
        Err(breach) => refused(breach.into()),
    };
    out.extend_from_slice(answer.as_bytes());
}

/// Whether an APDU goes to the core, or our own answer to it.
fn apdu(message: &[u8], out: &mut Vec<u8>) {
    let answer = match apdu::read(message) {
        Ok(_) => "good\n".to_string(),
        Err(status) => format!("status {:04x}\n", status as u16),
    };
    out.extend_from_slice(answer.as_bytes());
}

/// What a message or an item gets that is refused: the status, and where it is wrong.
fn refused(fault: Fault) -> String {
    format!("status {:02x} at {}\n", fault.status as u8, fault.place)
}

#[cfg(test)]
mod tests {
    use super::*;

    fn answers(script: &str) -> String {
        let mut out = Vec::new();
        Bench::default()
            .serve(script.as_bytes(), &mut out)
            .expect("memory can be read and written");
        String::from_utf8(out).expect("answers are ASCII")
    }

    #[test]
    fn examples_of_document_01() {
        assert_eq!(
            answers("item 4 81818180\nitem 4 8181818180\nitem 4 a21818006000\n"),
            "item 4\nstatus 12 at 4\nitem 6\n"
        );
        assert_eq!(
            answers("check 04\ncheck 04a0\ncheck 01a0\n"),
            "good\nstatus 03 at 1\nstatus 14 at 1\n"
        );
    }

    #[test]
    fn places_count_from_the_command_byte_or_the_item() {
        assert_eq!(
            answers("check 02a1006161ff\nitem 4 a1006161ff\ncheck 02a10061ff\nitem 4 a10061ff\n"),
            "status 12 at 5\nitem 4\nstatus 12 at 3\nstatus 12 at 2\n"
        );
        assert_eq!(
            answers("check\nitem 4\n"),
            "status 03 at 0\nstatus 12 at 0\n"
        );
    }

    #[test]
    fn apdus() {
        assert_eq!(
            answers("apdu 00030000000000\napdu\napdu 01030000000000\napdu 00000000000000\n"),
            "good\nstatus 6700\nstatus 6e00\nstatus 6d00\n"
        );
    }

    #[test]
    fn shows_only_what_is_lent() {
        assert_eq!(
            answers(
                "reply 2\nmessage 0\nstate 4294967295 4294967295 gathering 0 127 65535 9 8\nshow\n"
            ),
            "state 4294967295 4294967295 gathering 0 127 65535 9 8\nreply 0000\nmessage -\n"
        );
    }

    #[test]
    fn counts_every_line() {
        let long = format!("# {}", "a".repeat(LONGEST_LINE - 2));
        assert_eq!(
            answers(&format!("\n{long}\n{long}a\n# x\ntime\nfetch")),
            "? line 3\n? line 5\nrefused 4\n"
        );
    }
}
