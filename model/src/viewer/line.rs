//! A line of the viewer's protocol, read from its words.

use crate::line::{decode, number, number_up_to, optional_hex, words};
use crate::packet::Channel;

use super::writer::{GET_ASSERTION_KEYS, MAKE_CREDENTIAL_KEYS};

/// Bytes in the longest line, so that parts of more bytes than a message has can be given.
pub const LONGEST_LINE: usize = 40_000;
/// Bytes of the output buffer, all of which can be lent.
pub const OUTPUT_BUFFER: usize = 8_192;

/// The highest command.
const LAST_COMMAND: u8 = 127;

/// The encoded parts of a command with this many known keys, the first being key 1's.
pub type Parts<const KEYS: usize> = Box<[Option<Vec<u8>>; KEYS]>;

/// What a line asks for.
#[derive(Clone, Debug, PartialEq, Eq)]
pub enum Line {
    Nothing,
    Make(Parts<MAKE_CREDENTIAL_KEYS>),
    Get(Parts<GET_ASSERTION_KEYS>),
    Room(usize),
    Cut(Channel, u8, Vec<u8>),
    Await(Channel, u8),
    Packet(Vec<u8>),
    Apart(Vec<u8>),
    Walk(Vec<u8>),
}

/// Reads a line without its end; `None` where it is none of the protocol's.
pub fn read(line: &[u8]) -> Option<Line> {
    let words = words(line, LONGEST_LINE)?;
    Some(match words[..] {
        [] => Line::Nothing,
        ["make", ref parts @ ..] => Line::Make(read_parts(parts)?),
        ["get", ref parts @ ..] => Line::Get(read_parts(parts)?),
        ["room", bytes] => Line::Room(number_up_to(OUTPUT_BUFFER, bytes)?),
        ["cut", channel, command, ref hex @ ..] => Line::Cut(
            Channel(number(channel)?),
            read_command(command)?,
            optional_hex(hex)?,
        ),
        ["await", channel, command] => {
            Line::Await(Channel(number(channel)?), read_command(command)?)
        }
        ["packet", ref hex @ ..] => Line::Packet(optional_hex(hex)?),
        ["apart", ref hex @ ..] => Line::Apart(optional_hex(hex)?),
        ["walk", ref hex @ ..] => Line::Walk(optional_hex(hex)?),
        _ => return None,
    })
}

/// A known key is one digit, with no zeros before it.
fn read_key(word: &str) -> Option<usize> {
    match word.as_bytes() {
        [digit @ b'1'..=b'9'] => Some(usize::from(digit - b'0')),
        _ => None,
    }
}

/// Words of a key, `=` and the part's bytes, in any order and each key at most once.
fn read_parts<const KEYS: usize>(words: &[&str]) -> Option<Parts<KEYS>> {
    let mut parts = Box::new([const { None }; KEYS]);
    for word in words {
        let (key, hex) = word.split_once('=')?;
        let part = parts.get_mut(read_key(key)? - 1)?;
        if part.replace(decode(hex)?).is_some() {
            return None;
        }
    }
    Some(parts)
}

fn read_command(word: &str) -> Option<u8> {
    number(word).filter(|&command| command <= LAST_COMMAND)
}

#[cfg(test)]
mod tests {
    use super::*;

    /// The parts with these keys.
    fn parts<const KEYS: usize>(present: &[(usize, &[u8])]) -> Parts<KEYS> {
        let mut parts = Box::new([const { None }; KEYS]);
        for &(key, part) in present {
            parts[key - 1] = Some(part.to_vec());
        }
        parts
    }

    #[test]
    fn lines_that_are_read() {
        for (line, expected) in [
            ("", Line::Nothing),
            ("# make", Line::Nothing),
            ("make", Line::Make(parts(&[]))),
            ("get", Line::Get(parts(&[]))),
            (
                "make 9=00 1=fFa0",
                Line::Make(parts(&[(1, &[0xFF, 0xA0]), (9, &[0x00])])),
            ),
            ("get 7= 2=a0", Line::Get(parts(&[(7, &[]), (2, &[0xA0])]))),
            ("room 0", Line::Room(0)),
            ("room 08192", Line::Room(8_192)),
            ("cut 1 16", Line::Cut(Channel(1), 16, vec![])),
            ("cut 1 16 ", Line::Cut(Channel(1), 16, vec![])),
            (
                "cut 4294967295 127 00",
                Line::Cut(Channel(u32::MAX), 127, vec![0]),
            ),
            ("await 0 0", Line::Await(Channel(0), 0)),
            ("packet", Line::Packet(vec![])),
            ("packet ", Line::Packet(vec![])),
            ("packet 00fF", Line::Packet(vec![0x00, 0xFF])),
            ("apart", Line::Apart(vec![])),
            ("apart 00a0", Line::Apart(vec![0x00, 0xA0])),
            ("walk ", Line::Walk(vec![])),
            ("walk 00", Line::Walk(vec![0x00])),
        ] {
            assert_eq!(read(line.as_bytes()), Some(expected), "{line}");
        }
    }

    #[test]
    fn lines_that_are_not() {
        for line in [
            " ",
            " make",
            "make ",
            "make  1=00",
            "make 1=00 ",
            "make 1",
            "make =00",
            "make 1==00",
            "make 0=00",
            "make 10=00",
            "make 1=0",
            "make 1=0g",
            "make 1=00 1=00",
            "make 01=",
            "make 1= 01=",
            "make +1=00",
            "make 18446744073709551617=00",
            "get 8=00",
            "gets",
            "room",
            "room ",
            "room 8193",
            "room 1 1",
            "cut",
            "cut 1",
            "cut 1 128 00",
            "cut 4294967296 16 00",
            "cut 1 16 0",
            "cut 1 16 -",
            "cut 1 16 00 00",
            "await",
            "await 1",
            "await 1 128",
            "await 1 16 ",
            "await -1 16",
            "packet 0",
            "packet 00 00",
            "apart 0",
            "apart  ",
            "walk 00 00",
            "walk -",
            "Walk 00",
            "fetch",
            "walk 00\r",
        ] {
            assert_eq!(read(line.as_bytes()), None, "{line}");
        }
        assert_eq!(read(b"\xFF"), None);
        assert!(read(&[b'#'; LONGEST_LINE]).is_some());
        assert_eq!(read(&[b'#'; LONGEST_LINE + 1]), None);
    }
}
