//! The viewer's end on the bench, with the line protocol of the program `viewer_bench`.

use super::cut;
use super::gathering::{Gathering, Progress};
use super::line::{read, Line, LONGEST_LINE, OUTPUT_BUFFER};
use super::reply::{apart, entries, Entry};
use super::writer::{get_assertion, make_credential, Refused};
use crate::command::Status;
use crate::key::Refusal;
use crate::line::encode;
use crate::packet::{Channel, LONGEST};
use crate::pipe::{no_line, OnPipe};

/// A gathering and the buffers that are lent.
#[derive(Clone, Debug)]
pub struct ViewerBench {
    /// None before the first is awaited.
    pub gathering: Option<Gathering>,
    message: Box<[u8; LONGEST]>,
    output: Box<[u8; OUTPUT_BUFFER]>,
    /// How many bytes of the output buffer are lent.
    pub room: usize,
    lines: u64,
}

impl Default for ViewerBench {
    fn default() -> Self {
        ViewerBench {
            gathering: None,
            message: Box::new([0; LONGEST]),
            output: Box::new([0; OUTPUT_BUFFER]),
            room: LONGEST,
            lines: 0,
        }
    }
}

impl OnPipe for ViewerBench {
    const LONGEST_LINE: usize = LONGEST_LINE;

    fn line(&mut self, line: &[u8], out: &mut Vec<u8>) {
        self.lines += 1;
        let answered = read(line).and_then(|line| self.answer(line, out));
        if answered.is_none() {
            no_line(self.lines, out);
        }
    }

    fn state_line(&self) -> Option<String> {
        None
    }
}

impl ViewerBench {
    /// Answers a line; none where it cannot stand here.
    fn answer(&mut self, line: Line, out: &mut Vec<u8>) -> Option<()> {
        let room = &mut self.output[..self.room];
        match line {
            Line::Make(parts) => {
                let written = make_credential(&parts.each_ref().map(Option::as_deref), room);
                self.written(written, out);
            }
            Line::Get(parts) => {
                let written = get_assertion(&parts.each_ref().map(Option::as_deref), room);
                self.written(written, out);
            }
            Line::Room(bytes) => self.room = bytes,
            Line::Cut(channel, command, request) => packets(channel, command, &request, out),
            Line::Await(channel, command) => {
                self.gathering = Some(Gathering::new(channel, command));
            }
            Line::Packet(packet) => {
                let gathering = self.gathering.as_mut()?;
                let progress = gathering.packet(&packet, &mut self.message[..]);
                self.gathered(progress, out);
            }
            Line::Apart(reply) => taken_apart(&reply, out),
            Line::Walk(reply) => walk(&reply, out),
            Line::Nothing => {}
        }
        Some(())
    }

    /// The command that stands in the output buffer, or why none was written.
    fn written(&self, length: Result<usize, Refused>, out: &mut Vec<u8>) {
        match length {
            Ok(length) => bytes("bytes ", &self.output[..length], out),
            Err(Refused::Status(status)) => refused_with(status, out),
            Err(Refused::Call(refusal)) => refused(refusal, out),
        }
    }

    /// How far a reply is gathered, with its bytes once it is whole.
    fn gathered(&self, progress: Result<Progress, Refusal>, out: &mut Vec<u8>) {
        match progress {
            Ok(Progress::Awaited | Progress::Begun { .. }) => out.extend_from_slice(b"more\n"),
            Ok(Progress::Whole { length: 0 }) => out.extend_from_slice(b"whole -\n"),
            Ok(Progress::Whole { length }) => bytes("whole ", &self.message[..length], out),
            Ok(Progress::Ended(code)) => {
                out.extend_from_slice(format!("ended {code:02x}\n").as_bytes());
            }
            Err(refusal) => refused(refusal, out),
        }
    }
}

/// The packets of a request, a line each.
fn packets(channel: Channel, command: u8, request: &[u8], out: &mut Vec<u8>) {
    match cut(channel, command, request) {
        Ok(packets) => {
            for packet in packets {
                bytes("packet ", &packet, out);
            }
        }
        Err(refusal) => refused(refusal, out),
    }
}

/// The status of a reply, and where its map stands.
fn taken_apart(reply: &[u8], out: &mut Vec<u8>) {
    match apart(reply) {
        Ok(reply) => {
            out.extend_from_slice(format!("status {:02x}", reply.status).as_bytes());
            if let Some(map) = reply.map {
                out.extend_from_slice(format!(" map {} {}", map.start, map.len()).as_bytes());
            }
            out.push(b'\n');
        }
        Err(status) => refused_with(status, out),
    }
}

/// The entries of a reply's map, a line each, and the end.
fn walk(reply: &[u8], out: &mut Vec<u8>) {
    match entries(reply) {
        Ok(entries) => {
            for Entry { key, value } in entries {
                let key = format!("{} {}", key.start, key.len());
                let value = format!("{} {}", value.start, value.len());
                out.extend_from_slice(format!("entry {key} {value}\n").as_bytes());
            }
            out.extend_from_slice(b"end\n");
        }
        Err(status) => refused_with(status, out),
    }
}

fn bytes(word: &str, bytes: &[u8], out: &mut Vec<u8>) {
    out.extend_from_slice(word.as_bytes());
    encode(bytes, out);
    out.push(b'\n');
}

fn refused_with(status: Status, out: &mut Vec<u8>) {
    out.extend_from_slice(format!("refused {:02x}\n", status as u8).as_bytes());
}

fn refused(refusal: Refusal, out: &mut Vec<u8>) {
    out.extend_from_slice(format!("refused {}\n", refusal.number()).as_bytes());
}

#[cfg(test)]
mod tests {
    use super::*;

    fn answers(script: &str) -> String {
        let mut out = Vec::new();
        ViewerBench::default()
            .serve(script.as_bytes(), &mut out)
            .expect("memory can be read and written");
        String::from_utf8(out).expect("answers are ASCII")
    }

    #[test]
    fn writes_within_the_room() {
        let hash = format!("5820{}", "ab".repeat(32));
        let get = format!("get 2={hash} 1=60");
        let script = format!("get\nmake 1=\n{get}\nroom 38\n{get}\nroom 39\n{get}\n");
        let bytes = format!("bytes 02a2016002{hash}\n");
        assert_eq!(
            answers(&script),
            format!("refused 14\nrefused 12\n{bytes}refused 8\n{bytes}")
        );
    }

    #[test]
    fn cuts() {
        let [one, other] = [57, 1].map(|count| "61".repeat(count));
        let zeros = "00".repeat(58);
        assert_eq!(
            answers(&format!("cut 258 3 {one}{other}\n")),
            format!("packet 0000010283003a{one}\npacket 0000010200{other}{zeros}\n")
        );
        let too_long = "61".repeat(LONGEST + 1);
        assert_eq!(answers(&format!("cut 1 1 {too_long}\n")), "refused 8\n");
        assert_eq!(
            answers("cut 1 1\n"),
            format!("packet 00000001810000{}\n", "00".repeat(57))
        );
    }

    #[test]
    fn gathers() {
        let opening = |start: &str| format!("packet {start:0<128}\n");
        let script = [
            &opening("0000000190"),
            "await 1 16\n",
            &opening("000000029000"),
            "packet 00\n",
            &opening("00000001900002abcd"),
            &opening("0000000190000100"),
            "packet\n",
            "await 1 1\n",
            &opening("0000000181"),
            "await 1 1\n",
            &opening("00000001bf00017f"),
        ];
        assert_eq!(
            answers(&script.concat()),
            "? line 1\nmore\nrefused 1\nwhole abcd\nwhole abcd\nrefused 1\nwhole -\nended 7f\n"
        );
    }

    #[test]
    fn takes_apart() {
        assert_eq!(
            answers("apart 2d\napart 00a10101\napart\napart 0000\n"),
            "status 2d\nstatus 00 map 1 3\nrefused 03\nrefused 12\n"
        );
        assert_eq!(
            answers("walk 2d\nwalk 00a10118ff\nwalk\nwalk 0000\n"),
            "end\nentry 2 1 3 2\nend\nrefused 03\nrefused 12\n"
        );
    }

    #[test]
    fn counts_every_line() {
        let long = format!("# {}", "a".repeat(LONGEST_LINE - 2));
        assert_eq!(
            answers(&format!("\n{long}\n{long}a\n# x\nroom\nwalk 00")),
            "? line 3\n? line 5\nend\n"
        );
    }
}
