//! Writes commands from encoded parts, of which each known key has one or none.
//!
//! The status of parts that do not obey is that of the key, so the whole command is written in
//! memory of its own and given to the checking call. The output buffer is touched last.

use crate::cbor::{Breach, Reader, LEVELS};
use crate::command::{check_of_any_size, Fault, Status, GET_ASSERTION, MAKE_CREDENTIAL};
use crate::key::Refusal;
use crate::packet::LONGEST;

/// The known keys of MakeCredential are 1 to this.
pub const MAKE_CREDENTIAL_KEYS: usize = 9;
/// The known keys of GetAssertion are 1 to this.
pub const GET_ASSERTION_KEYS: usize = 7;

/// The head of a map with no entries; the count of a few entries is added to it.
const MAP_HEAD: u8 = 0xA0;

/// Why no command is written.
#[derive(Clone, Copy, Debug, PartialEq, Eq)]
pub enum Refused {
    /// What the key would answer to the command.
    Status(Status),
    /// The call is turned away.
    Call(Refusal),
}

impl From<Fault> for Refused {
    fn from(fault: Fault) -> Self {
        Refused::Status(fault.status)
    }
}

impl From<Breach> for Refused {
    fn from(breach: Breach) -> Self {
        Fault::from(breach).into()
    }
}

/// Writes a MakeCredential of these parts, the first being key 1's, and gives its length.
pub fn make_credential(
    parts: &[Option<&[u8]>; MAKE_CREDENTIAL_KEYS],
    out: &mut [u8],
) -> Result<usize, Refused> {
    write(MAKE_CREDENTIAL, parts, out)
}

/// Writes a GetAssertion of these parts, the first being key 1's, and gives its length.
pub fn get_assertion(
    parts: &[Option<&[u8]>; GET_ASSERTION_KEYS],
    out: &mut [u8],
) -> Result<usize, Refused> {
    write(GET_ASSERTION, parts, out)
}

/// Looks at the form of each part first, then at the command as the key does, then at its size.
fn write(command: u8, parts: &[Option<&[u8]>], out: &mut [u8]) -> Result<usize, Refused> {
    for part in parts.iter().flatten() {
        one_item(part)?;
    }
    let written = encoded(command, parts);
    check_of_any_size(&written)?;
    let length = written.len();
    match out.get_mut(..length) {
        Some(room) if length <= LONGEST => room.copy_from_slice(&written),
        _ => return Err(Refused::Call(Refusal::TooLong)),
    }
    Ok(length)
}

/// A part is exactly one canonical item, of which the outer map takes one level.
fn one_item(part: &[u8]) -> Result<(), Breach> {
    let mut reader = Reader::new(part, 0);
    reader.skip(LEVELS - 1)?;
    reader.finish()
}

/// The command byte and the map of the parts that are present; a key is one byte.
fn encoded(command: u8, parts: &[Option<&[u8]>]) -> Vec<u8> {
    let present = parts.iter().flatten().count() as u8;
    let mut written = vec![command, MAP_HEAD + present];
    for (key, part) in (1..).zip(parts) {
        if let Some(part) = part {
            written.push(key);
            written.extend_from_slice(part);
        }
    }
    written
}

#[cfg(test)]
mod tests {
    use super::*;
    use crate::command::{check, HASH};

    const ALGORITHMS: &[u8] = b"\x81\xA2\x63alg\x26\x64type\x6Apublic-key";

    /// An encoded client data hash.
    fn hash() -> Vec<u8> {
        [&b"\x58\x20"[..], &[0xAB; HASH]].concat()
    }

    /// A byte string that takes this many bytes, of which its head takes three.
    fn bytes(length: usize) -> Vec<u8> {
        let [high, low] = u16::to_be_bytes(length as u16 - 3);
        [vec![0x59, high, low], vec![0x5A; length - 3]].concat()
    }

    /// Writes a MakeCredential with the required parts, and these in their places.
    fn made(others: &[(usize, &[u8])], out: &mut [u8]) -> Result<usize, Refused> {
        let hash = hash();
        let mut parts: [Option<&[u8]>; MAKE_CREDENTIAL_KEYS] = [None; MAKE_CREDENTIAL_KEYS];
        parts[..4].copy_from_slice(&[&hash[..], b"\xA0", b"\xA0", ALGORITHMS].map(Some));
        for &(key, part) in others {
            parts[key - 1] = Some(part);
        }
        make_credential(&parts, out)
    }

    fn refused(status: Status) -> Result<usize, Refused> {
        Err(Refused::Status(status))
    }

    const TOO_LONG: Result<usize, Refused> = Err(Refused::Call(Refusal::TooLong));

    #[test]
    fn the_parts_in_their_order() {
        let hash = hash();
        let mut parts = [None; GET_ASSERTION_KEYS];
        parts[6] = Some(&b"\x01"[..]);
        parts[1] = Some(&hash);
        parts[0] = Some(b"\x61a");
        let mut out = [0xEE; 64];
        let expected = [b"\x02\xA3\x01\x61a\x02", &hash[..], b"\x07\x01"].concat();
        assert_eq!(get_assertion(&parts, &mut out), Ok(expected.len()));
        assert_eq!(out[..expected.len()], expected);
        assert!(out[expected.len()..].iter().all(|&byte| byte == 0xEE));
        assert!(check(&expected).is_ok());
    }

    #[test]
    fn a_part_is_exactly_one_canonical_item() {
        for part in [
            &b""[..],
            b"\xFF",
            b"\x18\x01",
            b"\x00\x00",
            b"\x61\xFF",
            b"\xA2\x00\x00\x00\x00",
            b"\x81",
            // four levels
            b"\x81\x81\x81\x80",
            b"\xA1\x00\x81\x81\xA0",
        ] {
            for key in 1..=MAKE_CREDENTIAL_KEYS {
                let found = made(&[(key, part)], &mut [0; LONGEST]);
                assert_eq!(found, refused(Status::InvalidCbor), "{key}: {part:02x?}");
            }
        }
        let three_levels = b"\xA1\x00\x81\x80";
        assert!(made(&[(7, three_levels)], &mut [0; LONGEST]).is_ok());
    }

    #[test]
    fn the_form_of_every_part_comes_first() {
        // a wrong kind, a hash of another length, and a command that is too long
        let long = bytes(LONGEST);
        for other in [&b"\x00"[..], b"\x40", &long] {
            let found = made(&[(1, other), (9, b"\x18\x01")], &mut []);
            assert_eq!(found, refused(Status::InvalidCbor));
        }
        // two parts that would be one map together
        let found = made(&[(2, b"\xA1\x00"), (3, b"")], &mut [0; LONGEST]);
        assert_eq!(found, refused(Status::InvalidCbor));
    }

    #[test]
    fn statuses_of_the_key() {
        for (others, status) in [
            (&[(1, &b"\x00"[..])][..], Status::UnexpectedKind),
            (&[(1, b"\x40")], Status::InvalidLength),
            (&[(4, b"\x81\x00")], Status::UnexpectedKind),
            (&[(4, b"\x81\xA0")], Status::MissingParameter),
            (&[(4, b"\x80")], Status::UnsupportedAlgorithm),
            (&[(4, b"\x80"), (9, b"\x20")], Status::UnexpectedKind),
            (&[(1, b"\x40"), (2, b"\x00")], Status::InvalidLength),
        ] {
            let found = made(others, &mut [0; LONGEST]);
            assert_eq!(found, refused(status), "{others:02x?}");
        }
        let none = make_credential(&[None; MAKE_CREDENTIAL_KEYS], &mut [0; LONGEST]);
        assert_eq!(none, refused(Status::MissingParameter));
        let none = get_assertion(&[None; GET_ASSERTION_KEYS], &mut [0; LONGEST]);
        assert_eq!(none, refused(Status::MissingParameter));
    }

    #[test]
    fn sizes_come_after_the_statuses() {
        let bare = made(&[], &mut [0; LONGEST]).expect("a command");
        let of_size = |size: usize| bytes(size - bare - 1);
        let mut out = [0xEE; LONGEST + 1];
        assert_eq!(made(&[(8, &of_size(LONGEST + 1))], &mut out), TOO_LONG);
        assert_eq!(made(&[], &mut out[..bare - 1]), TOO_LONG);
        assert_eq!(made(&[], &mut []), TOO_LONG);
        let long = bytes(9_000);
        let unsupported = made(&[(8, &long), (4, b"\x80")], &mut []);
        assert_eq!(unsupported, refused(Status::UnsupportedAlgorithm));
        assert_eq!(made(&[(8, &long)], &mut [0; 10_000]), TOO_LONG);
        // Nothing is written of what is refused.
        assert_eq!(out, [0xEE; LONGEST + 1]);
        let longest = of_size(LONGEST);
        assert_eq!(made(&[(8, &longest)], &mut out), Ok(LONGEST));
        assert_eq!(out[LONGEST], 0xEE);
        assert_eq!(made(&[(8, &longest)], &mut out[..LONGEST - 1]), TOO_LONG);
        assert_eq!(made(&[], &mut out[..bare]), Ok(bare));
    }
}
