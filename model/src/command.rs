//! The checking call: which CBOR commands go to the core, and what the others get
//! (document 01, "CBOR commands").

use crate::cbor::{Breach, Item, Kind, Reader, LEVELS};
use crate::packet::LONGEST;

pub const MAKE_CREDENTIAL: u8 = 0x01;
pub const GET_ASSERTION: u8 = 0x02;
const GET_INFO: u8 = 0x04;

/// The place of the command byte, and of what is wrong with a message as a whole.
const COMMAND: usize = 0;
/// The place of what follows the command byte.
const PARAMETERS: usize = 1;

/// Bytes in a client data hash.
pub const HASH: usize = 32;

/// The argument of -7, since a negative integer means -1 - n.
const MINUS_SEVEN: u64 = 6;

/// The status bytes of this part of the key.
#[derive(Clone, Copy, Debug, PartialEq, Eq)]
#[repr(u8)]
pub enum Status {
    InvalidCommand = 0x01,
    InvalidLength = 0x03,
    UnexpectedKind = 0x11,
    InvalidCbor = 0x12,
    MissingParameter = 0x14,
    UnsupportedAlgorithm = 0x26,
    Cancelled = 0x2D,
}

/// Why a command does not go to the core, and where it is wrong. The host is told the status alone.
#[derive(Clone, Copy, Debug, PartialEq, Eq)]
pub struct Fault {
    pub status: Status,
    /// Counted in the message, whose command byte is place 0.
    pub place: usize,
}

impl Status {
    /// The fault of what stands at this place.
    fn at(self, place: usize) -> Fault {
        Fault {
            status: self,
            place,
        }
    }
}

impl From<Breach> for Fault {
    fn from(breach: Breach) -> Self {
        Status::InvalidCbor.at(breach.place)
    }
}

/// A command that goes to the core.
#[derive(Clone, Copy, Debug, PartialEq, Eq)]
pub struct Good<'a> {
    /// The 32 hash bytes, a part of the message; empty for GetInfo.
    pub hash: &'a [u8],
}

impl Good<'_> {
    /// Where the hash begins in the message that was checked; none for GetInfo.
    pub fn hash_place(&self, message: &[u8]) -> Option<usize> {
        // The hash is a part of the message, so its place is the distance of the two.
        (!self.hash.is_empty()).then(|| self.hash.as_ptr() as usize - message.as_ptr() as usize)
    }
}

/// Checks a whole command.
pub fn check(message: &[u8]) -> Result<Good<'_>, Fault> {
    if message.len() > LONGEST {
        return Err(Status::InvalidLength.at(COMMAND));
    }
    check_of_any_size(message)
}

/// Checks a command that can be longer than any message.
pub fn check_of_any_size(message: &[u8]) -> Result<Good<'_>, Fault> {
    match *message {
        [] => Err(Status::InvalidLength.at(COMMAND)),
        [GET_INFO] => Ok(Good { hash: &[] }),
        [GET_INFO, ..] => Err(Status::InvalidLength.at(PARAMETERS)),
        [MAKE_CREDENTIAL, ..] => check_parameters(message, &MAKE_CREDENTIAL_PARAMETERS),
        [GET_ASSERTION, ..] => check_parameters(message, &GET_ASSERTION_PARAMETERS),
        [_, ..] => Err(Status::InvalidCommand.at(COMMAND)),
    }
}

/// What a known key's value has to be.
#[derive(Clone, Copy)]
enum Value {
    Of(Kind),
    /// Bytes, 32 of them.
    Hash,
    /// An array of maps with "alg" and "type", one of them of an algorithm the key has.
    Algorithms,
}

#[derive(Clone, Copy)]
struct Parameter {
    value: Value,
    required: bool,
}

const fn required(value: Value) -> Parameter {
    Parameter {
        value,
        required: true,
    }
}

const fn optional(kind: Kind) -> Parameter {
    Parameter {
        value: Value::Of(kind),
        required: false,
    }
}

/// The known keys of MakeCredential, from 1 on.
static MAKE_CREDENTIAL_PARAMETERS: [Parameter; 9] = [
    required(Value::Hash),
    required(Value::Of(Kind::Map)),
    required(Value::Of(Kind::Map)),
    required(Value::Algorithms),
    optional(Kind::Array),
    optional(Kind::Map),
    optional(Kind::Map),
    optional(Kind::Bytes),
    optional(Kind::Unsigned),
];

/// The known keys of GetAssertion, from 1 on.
static GET_ASSERTION_PARAMETERS: [Parameter; 7] = [
    required(Value::Of(Kind::Text)),
    required(Value::Hash),
    optional(Kind::Array),
    optional(Kind::Map),
    optional(Kind::Map),
    optional(Kind::Bytes),
    optional(Kind::Unsigned),
];

/// Checks the one map after the command byte: every breach of the canonical form first, then the
/// first fault of a known key, then what is absent, then the algorithms.
fn check_parameters<'a>(message: &'a [u8], known: &[Parameter]) -> Result<Good<'a>, Fault> {
    let mut reader = Reader::new(message, PARAMETERS);
    let map = reader.head()?;
    // What stands in an outer item that is no map is not looked at.
    if map.kind != Kind::Map {
        return Err(Status::InvalidCbor.at(map.place));
    }
    let mut found = Found::default();
    reader.map(map, LEVELS, |reader, key, levels| {
        match known_index(key, known) {
            Some(index) => found.parameter(reader, index, known[index].value, levels),
            None => reader.skip(levels),
        }
    })?;
    reader.finish()?;
    found.verdict(known)
}

/// The place of an encoded key among the known keys; the keys 1 to 9 are a byte each.
fn known_index(key: &[u8], known: &[Parameter]) -> Option<usize> {
    match *key {
        [key] => usize::from(key)
            .checked_sub(1)
            .filter(|&index| index < known.len()),
        _ => None,
    }
}

/// What one pass over the map finds. Known keys come by in rising order, which is their canonical
/// order too, so the fault that is found first decides.
#[derive(Default)]
struct Found<'a> {
    fault: Option<Fault>,
    /// Bit `index` is set where the known key of that index is present.
    present: u16,
    hash: &'a [u8],
    /// The place of key 4's array, as long as none of its entries is an algorithm the key has.
    unsupported: Option<usize>,
}

impl<'a> Found<'a> {
    /// Reads the value of a known key.
    fn parameter(
        &mut self,
        reader: &mut Reader<'a>,
        index: usize,
        expected: Value,
        levels: u8,
    ) -> Result<(), Breach> {
        self.present |= 1 << index;
        match expected {
            Value::Of(kind) => {
                let head = reader.item(levels)?.head;
                self.require(head.kind == kind, Status::UnexpectedKind.at(head.place));
            }
            Value::Hash => {
                let Item { head, content } = reader.item(levels)?;
                let kind = Status::UnexpectedKind.at(head.place);
                self.require(head.kind == Kind::Bytes, kind);
                let length = Status::InvalidLength.at(head.place);
                self.require(content.len() == HASH, length);
                self.hash = content;
            }
            Value::Algorithms => self.algorithms(reader, levels)?,
        }
        Ok(())
    }

    /// Reads MakeCredential's key 4, entry by entry.
    fn algorithms(&mut self, reader: &mut Reader<'a>, levels: u8) -> Result<(), Breach> {
        let head = reader.head()?;
        if head.kind != Kind::Array {
            self.require(false, Status::UnexpectedKind.at(head.place));
            return reader.skip_content(head, levels);
        }
        self.unsupported = Some(head.place);
        reader.array(head, levels, |reader, levels| {
            self.algorithm(reader, levels)
        })
    }

    /// Reads one entry of key 4.
    fn algorithm(&mut self, reader: &mut Reader<'a>, levels: u8) -> Result<(), Breach> {
        let head = reader.head()?;
        if head.kind != Kind::Map {
            self.require(false, Status::UnexpectedKind.at(head.place));
            return reader.skip_content(head, levels);
        }
        let mut entry = Entry {
            place: head.place,
            alg: None,
            kind: None,
        };
        reader.map(head, levels, |reader, key, levels| {
            let value = reader.item(levels)?;
            match key {
                b"\x63alg" => entry.alg = Some(value),
                b"\x64type" => entry.kind = Some(value),
                _ => {}
            }
            Ok(())
        })?;
        match entry.is_supported() {
            Ok(true) => self.unsupported = None,
            Ok(false) => {}
            Err(fault) => self.require(false, fault),
        }
        Ok(())
    }

    /// Notes a fault where a rule does not hold, unless one came before it.
    fn require(&mut self, holds: bool, fault: Fault) {
        if !holds {
            self.fault.get_or_insert(fault);
        }
    }

    fn verdict(self, known: &[Parameter]) -> Result<Good<'a>, Fault> {
        if let Some(fault) = self.fault {
            return Err(fault);
        }
        for (index, parameter) in known.iter().enumerate() {
            if parameter.required && self.present & 1 << index == 0 {
                return Err(Status::MissingParameter.at(PARAMETERS));
            }
        }
        if let Some(place) = self.unsupported {
            return Err(Status::UnsupportedAlgorithm.at(place));
        }
        Ok(Good { hash: self.hash })
    }
}

/// What an entry of key 4 says.
struct Entry<'a> {
    place: usize,
    alg: Option<Item<'a>>,
    kind: Option<Item<'a>>,
}

impl Entry<'_> {
    /// Whether the entry is "alg" -7 and "type" "public-key"; "alg" is looked at before "type".
    fn is_supported(&self) -> Result<bool, Fault> {
        let absent = Status::MissingParameter.at(self.place);
        let alg = self.alg.ok_or(absent)?.head;
        if !matches!(alg.kind, Kind::Unsigned | Kind::Negative) {
            return Err(Status::UnexpectedKind.at(alg.place));
        }
        let kind = self.kind.ok_or(absent)?;
        if kind.head.kind != Kind::Text {
            return Err(Status::UnexpectedKind.at(kind.head.place));
        }
        let minus_seven = alg.kind == Kind::Negative && alg.argument == MINUS_SEVEN;
        Ok(minus_seven && kind.content == b"public-key")
    }
}

#[cfg(test)]
mod tests {
    use super::*;

    /// The place of key 4's value in a [`make_credential`].
    const ALGORITHMS: usize = 5 + HASH + 5;

    /// A MakeCredential whose key 4 is `algorithms`.
    fn make_credential(algorithms: &[u8]) -> Vec<u8> {
        let mut message = vec![MAKE_CREDENTIAL, 0xA4, 0x01, 0x58, 0x20];
        message.extend_from_slice(&[0xAB; HASH]);
        message.extend_from_slice(&[0x02, 0xA0, 0x03, 0xA0, 0x04]);
        message.extend_from_slice(algorithms);
        message
    }

    /// An array of one entry with this encoded "alg" and "type" "public-key".
    fn with_alg(alg: &[u8]) -> Vec<u8> {
        let mut entry = b"\x81\xA2\x63alg".to_vec();
        entry.extend_from_slice(alg);
        entry.extend_from_slice(b"\x64type\x6Apublic-key");
        make_credential(&entry)
    }

    /// What the checking call gives where it finds this fault.
    fn fault(status: Status, place: usize) -> Result<Good<'static>, Fault> {
        Err(Fault { status, place })
    }

    #[test]
    fn examples_of_document_01() {
        assert_eq!(check(&[0x04]), Ok(Good { hash: &[] }));
        assert_eq!(check(&[0x04, 0xA0]), fault(Status::InvalidLength, 1));
        assert_eq!(check(&[0x01, 0xA0]), fault(Status::MissingParameter, 1));
        for (map, place) in [(&[0xA1, 0x18, 0x01, 0x00][..], 2), (&[0xA2, 0, 0, 0, 0], 4)] {
            let message = [&[MAKE_CREDENTIAL], map].concat();
            assert_eq!(check(&message), fault(Status::InvalidCbor, place));
        }
    }

    #[test]
    fn sizes_and_commands() {
        assert_eq!(check(&[]), fault(Status::InvalidLength, 0));
        for command in [0x00, 0x01, 0x04] {
            let too_long = [command; LONGEST + 1];
            assert_eq!(check(&too_long), fault(Status::InvalidLength, 0));
        }
        for command in [0x00, 0x03, 0x05, 0xFF] {
            assert_eq!(check(&[command]), fault(Status::InvalidCommand, 0));
        }
        let longest = [0x04; LONGEST];
        assert_eq!(check(&longest), fault(Status::InvalidLength, 1));
    }

    #[test]
    fn one_map_and_nothing_after() {
        for (message, place) in [
            (&[0x01][..], 1),
            (&[0x02, 0x80], 1),
            (&[0x02, 0x82, 0x00, 0xFF], 1),
            (&[0x02, 0xFF, 0x00], 1),
            (&[0x02, 0xA0, 0x00, 0x00], 2),
            (&[0x02, 0xA1, 0x00, 0x00, 0xFF], 4),
        ] {
            let found = check(message);
            assert_eq!(found, fault(Status::InvalidCbor, place), "{message:02x?}");
        }
    }

    #[test]
    fn the_hash_is_a_part_of_the_message() {
        let message = with_alg(&[0x26]);
        let good = check(&message).expect("a good command");
        assert_eq!(good.hash.as_ptr(), message[5..].as_ptr());
        assert_eq!(good.hash.len(), HASH);
    }

    #[test]
    fn an_alg_of_any_size_is_compared_exactly() {
        for alg in [
            &[0x06][..],                                      // 6
            &[0x25],                                          // -6
            &[0x18, 0xF9],                                    // 249
            &[0x38, 0xF8],                                    // -249
            &[0x39, 0x01, 0x00],                              // -257
            &[0x39, 0x01, 0x06],                              // -263
            &[0x1A, 0xFF, 0xFF, 0xFF, 0xF9],                  // 2^32 - 7
            &[0x3B, 0, 0, 0, 1, 0, 0, 0, 6],                  // -2^32 - 7
            &[0x1B, 255, 255, 255, 255, 255, 255, 255, 0xF9], // 2^64 - 7
        ] {
            assert_eq!(
                check(&with_alg(alg)),
                fault(Status::UnsupportedAlgorithm, ALGORITHMS),
                "{alg:02x?}"
            );
        }
    }

    #[test]
    fn the_first_fault_of_key_4_decides() {
        use Status::{MissingParameter, UnexpectedKind, UnsupportedAlgorithm};
        for (algorithms, status, place) in [
            (&b"\xA0"[..], UnexpectedKind, 0),
            (b"\x80", UnsupportedAlgorithm, 0),
            (b"\x81\x00", UnexpectedKind, 1),
            (b"\x81\xA0", MissingParameter, 1),
            (b"\x81\xA1\x64type\x00", MissingParameter, 1),
            (b"\x81\xA1\x63alg\x60", UnexpectedKind, 6),
            (b"\x81\xA1\x63alg\x26", MissingParameter, 1),
            (b"\x81\xA2\x63alg\x26\x64type\x00", UnexpectedKind, 12),
            (b"\x81\xA2\x63alg\x60\x64type\x00", UnexpectedKind, 6),
            (b"\x82\xA0\x00", MissingParameter, 1),
            (b"\x82\x00\xA0", UnexpectedKind, 1),
            (b"\x82\xA2\x63alg\x26\x64type\x60\xA0", MissingParameter, 13),
            (b"\x81\xA2\x63alg\x26\x64type\x60", UnsupportedAlgorithm, 0),
        ] {
            let message = make_credential(algorithms);
            let expected = fault(status, ALGORITHMS + place);
            assert_eq!(check(&message), expected, "{algorithms:02x?}");
        }
    }

    #[test]
    fn a_breach_goes_before_a_fault() {
        let mut message = make_credential(b"\x00");
        message[1] = 0xA5;
        message.extend_from_slice(&[0x04, 0x80]);
        let later_key = ALGORITHMS + 1;
        assert_eq!(check(&message), fault(Status::InvalidCbor, later_key));
    }

    #[test]
    fn a_fault_goes_before_an_absent_key() {
        for (message, status, place) in [
            (&[0x01, 0xA1, 0x09, 0x20][..], Status::UnexpectedKind, 3),
            (&[0x01, 0xA1, 0x01, 0x40], Status::InvalidLength, 3),
            (&[0x02, 0xA1, 0x01, 0x60], Status::MissingParameter, 1),
            (&[0x02, 0xA1, 0x08, 0x20], Status::MissingParameter, 1),
        ] {
            assert_eq!(check(message), fault(status, place), "{message:02x?}");
        }
    }
}
