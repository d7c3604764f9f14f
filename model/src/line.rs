//! A line of the bench's protocol, read from its words.

use crate::cbor::LEVELS;
use crate::key::{Key, Message, Ticket, Transaction};
use crate::packet::Channel;

/// Bytes in the longest line.
pub const LONGEST_LINE: usize = 20_000;
/// Bytes in the longest packet or delivery a line can give.
pub const LONGEST_HEX: usize = 8_000;
/// Bytes of the reply buffer, all of which can be lent.
pub const REPLY_BUFFER: usize = 128;
/// Bytes of the message buffer, all of which can be lent.
pub const MESSAGE_BUFFER: usize = 8_192;

/// What a line asks for.
#[derive(Clone, Debug, PartialEq, Eq)]
pub enum Line {
    Nothing,
    Packet(Vec<u8>),
    Time(u32),
    Deliver(Ticket, Vec<u8>),
    Fetch,
    Check(Vec<u8>),
    Item(u8, Vec<u8>),
    Apdu(Vec<u8>),
    LendReply(usize),
    LendMessage(usize),
    State(Key),
    Show,
}

/// Reads a line without its end; `None` where it is none of the protocol's.
pub fn read(line: &[u8]) -> Option<Line> {
    let words = words(line, LONGEST_LINE)?;
    Some(match words[..] {
        [] => Line::Nothing,
        ["packet", ref hex @ ..] => Line::Packet(hex_up_to(LONGEST_HEX, hex)?),
        ["time", elapsed] => Line::Time(number(elapsed)?),
        ["deliver", ticket, ref hex @ ..] => {
            Line::Deliver(Ticket(number(ticket)?), hex_up_to(LONGEST_HEX, hex)?)
        }
        ["fetch"] => Line::Fetch,
        ["check", ref hex @ ..] => Line::Check(optional_hex(hex)?),
        ["item", levels, ref hex @ ..] => {
            let levels = number(levels).filter(|&levels| levels <= LEVELS)?;
            Line::Item(levels, optional_hex(hex)?)
        }
        ["apdu", ref hex @ ..] => Line::Apdu(optional_hex(hex)?),
        ["reply", bytes] => Line::LendReply(number_up_to(REPLY_BUFFER, bytes)?),
        ["message", bytes] => Line::LendMessage(number_up_to(MESSAGE_BUFFER, bytes)?),
        ["state", channels, ticket, ref transaction @ ..] => Line::State(Key {
            channels: number(channels)?,
            ticket: Ticket(number(ticket)?),
            transaction: read_transaction(transaction)?,
        }),
        ["show"] => Line::Show,
        _ => return None,
    })
}

/// The words of a line of at most `longest` bytes; none where the line is to be passed over.
pub(crate) fn words(line: &[u8], longest: usize) -> Option<Vec<&str>> {
    if line.len() > longest {
        return None;
    }
    if line.is_empty() || line.starts_with(b"#") {
        return Some(Vec::new());
    }
    let line = std::str::from_utf8(line).ok()?;
    Some(line.split(' ').collect())
}

fn read_transaction(words: &[&str]) -> Option<Transaction> {
    Some(match *words {
        ["idle"] => Transaction::Idle,
        ["gathering", holder, command, length, done, left] => Transaction::Gathering {
            message: read_message(holder, command, length)?,
            done: number(done)?,
            left: number(left)?,
        },
        ["waiting", holder, command, length] => Transaction::Waiting {
            message: read_message(holder, command, length)?,
        },
        ["answering", holder, command, length, done] => Transaction::Answering {
            message: read_message(holder, command, length)?,
            done: number(done)?,
        },
        _ => return None,
    })
}

fn read_message(holder: &str, command: &str, length: &str) -> Option<Message> {
    Some(Message {
        holder: Channel(number(holder)?),
        command: number(command)?,
        length: number(length)?,
    })
}

/// A decimal number that fits its place.
pub(crate) fn number<T: std::str::FromStr>(word: &str) -> Option<T> {
    let is_decimal = word.bytes().all(|byte| byte.is_ascii_digit());
    word.parse().ok().filter(|_| is_decimal)
}

pub(crate) fn number_up_to(most: usize, word: &str) -> Option<usize> {
    number(word).filter(|&value| value <= most)
}

/// The bytes of the last word of a line, which can be missing, with the space before it or without.
pub(crate) fn optional_hex(words: &[&str]) -> Option<Vec<u8>> {
    match *words {
        [] => Some(Vec::new()),
        [hex] => decode(hex),
        _ => None,
    }
}

fn hex_up_to(most: usize, words: &[&str]) -> Option<Vec<u8>> {
    optional_hex(words).filter(|bytes| bytes.len() <= most)
}

/// The bytes of a hex word.
pub fn decode(hex: &str) -> Option<Vec<u8>> {
    let digit = |byte: u8| char::from(byte).to_digit(16);
    let pairs = hex.as_bytes().chunks_exact(2);
    if !pairs.remainder().is_empty() {
        return None;
    }
    pairs
        .map(|pair| Some((digit(pair[0])? << 4 | digit(pair[1])?) as u8))
        .collect()
}

/// Bytes as hex.
pub fn hex(bytes: &[u8]) -> String {
    let mut out = Vec::new();
    encode(bytes, &mut out);
    String::from_utf8_lossy(&out).into_owned()
}

/// Writes bytes as hex.
pub fn encode(bytes: &[u8], out: &mut Vec<u8>) {
    const DIGITS: &[u8; 16] = b"0123456789abcdef";
    out.reserve(2 * bytes.len());
    for &byte in bytes {
        out.push(DIGITS[usize::from(byte >> 4)]);
        out.push(DIGITS[usize::from(byte & 0x0F)]);
    }
}

#[cfg(test)]
mod tests {
    use super::*;

    #[test]
    fn lines_that_are_read() {
        for (line, expected) in [
            ("", Line::Nothing),
            ("# packet", Line::Nothing),
            ("packet", Line::Packet(vec![])),
            ("packet ", Line::Packet(vec![])),
            ("packet 00fF", Line::Packet(vec![0x00, 0xFF])),
            ("time 4294967295", Line::Time(u32::MAX)),
            ("deliver 7", Line::Deliver(Ticket(7), vec![])),
            ("deliver 7 0a", Line::Deliver(Ticket(7), vec![0x0A])),
            ("fetch", Line::Fetch),
            ("check 04", Line::Check(vec![0x04])),
            ("item 4 80", Line::Item(4, vec![0x80])),
            ("item 0", Line::Item(0, vec![])),
            ("apdu 00fF", Line::Apdu(vec![0x00, 0xFF])),
            ("apdu", Line::Apdu(vec![])),
            ("apdu ", Line::Apdu(vec![])),
            ("reply 128", Line::LendReply(128)),
            ("message 8192", Line::LendMessage(8_192)),
            ("show", Line::Show),
        ] {
            assert_eq!(read(line.as_bytes()), Some(expected), "{line}");
        }
    }

    #[test]
    fn lines_that_are_not() {
        for line in [
            " ",
            " fetch",
            "fetch ",
            "fetch 1",
            "Fetch",
            "packet 0",
            "packet 0g",
            "packet 00 00",
            "packet  00",
            "packet  ",
            "time",
            "time -1",
            "time +1",
            "time 4294967296",
            "time 0x10",
            "deliver",
            "deliver 00a0",
            "deliver 4294967296",
            "item 5 00",
            "item",
            "apdu 0",
            "apdu 00 00",
            "reply 129",
            "message 8193",
            "state 0 0",
            "state 0 0 idle 0",
            "state 0 0 gathering 1 1 58 1",
            "state 0 0 waiting 1 16 58 1",
            "fetch\r",
        ] {
            assert_eq!(read(line.as_bytes()), None, "{line}");
        }
        assert_eq!(read(b"\xFF"), None);
        let hex = "00".repeat(LONGEST_HEX);
        assert!(read(format!("packet {hex}").as_bytes()).is_some());
        assert_eq!(read(format!("packet {hex}00").as_bytes()), None);
        assert_eq!(read(format!("deliver 1 {hex}00").as_bytes()), None);
        assert!(read(&[b'#'; LONGEST_LINE]).is_some());
        assert_eq!(read(&[b'#'; LONGEST_LINE + 1]), None);
    }
}
