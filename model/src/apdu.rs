//! Extended-length APDUs, which MSG carries: which go to the core, and what the others get
//! (request 2026-01).

use std::ops::RangeInclusive;

/// The only class.
const CLASS: u8 = 0;
/// The instructions of U2F.
const INSTRUCTIONS: RangeInclusive<u8> = 1..=3;
/// The byte before the two length bytes, which marks the extended form.
const EXTENDED: u8 = 0;

/// The two status bytes of our own answers, high first.
#[derive(Clone, Copy, Debug, PartialEq, Eq)]
#[repr(u16)]
pub enum Status {
    WrongLength = 0x6700,
    UnknownInstruction = 0x6D00,
    UnknownClass = 0x6E00,
}

impl Status {
    pub fn bytes(self) -> [u8; 2] {
        (self as u16).to_be_bytes()
    }
}

/// An APDU that goes to the core.
#[derive(Clone, Copy, Debug, PartialEq, Eq)]
pub struct Good<'a> {
    /// A part of the message.
    pub data: &'a [u8],
    /// The number in the two bytes behind the data, where there are any.
    pub reply_length: Option<u16>,
}

/// Reads a whole APDU: class, instruction, two parameters, 00, two length bytes, data, and two
/// bytes of reply length or none.
pub fn read(message: &[u8]) -> Result<Good<'_>, Status> {
    let [class, instruction, _, _, extended, high, low, ref rest @ ..] = *message else {
        return Err(Status::WrongLength);
    };
    if class != CLASS {
        return Err(Status::UnknownClass);
    }
    if !INSTRUCTIONS.contains(&instruction) {
        return Err(Status::UnknownInstruction);
    }
    if extended != EXTENDED {
        return Err(Status::WrongLength);
    }
    let length = u16::from_be_bytes([high, low]);
    let (data, reply_length) = rest
        .split_at_checked(usize::from(length))
        .ok_or(Status::WrongLength)?;
    let reply_length = match *reply_length {
        [] => None,
        [high, low] => Some(u16::from_be_bytes([high, low])),
        _ => return Err(Status::WrongLength),
    };
    Ok(Good { data, reply_length })
}

#[cfg(test)]
mod tests {
    use super::*;

    #[test]
    fn data_and_reply_length() {
        for (message, data, reply_length) in [
            (&b"\x00\x03\x00\x00\x00\x00\x00"[..], &b""[..], None),
            (b"\x00\x03\x00\x00\x00\x00\x00\x00\x00", b"", Some(0)),
            (b"\x00\x01\xAB\xCD\x00\x00\x02\x61\x62", b"ab", None),
            (
                b"\x00\x02\xAB\xCD\x00\x00\x01\x61\x01\x02",
                b"a",
                Some(0x102),
            ),
        ] {
            assert_eq!(read(message), Ok(Good { data, reply_length }));
        }
    }

    #[test]
    fn the_first_fault_decides() {
        for (message, status) in [
            (&b""[..], Status::WrongLength),
            (b"\xFF\xFF\x00\x00\x00\x00", Status::WrongLength),
            (b"\x01\x00\x00\x00\x01\x00\x00", Status::UnknownClass),
            (b"\x00\x00\x00\x00\x01\x00\x00", Status::UnknownInstruction),
            (b"\x00\x04\x00\x00\x00\x00\x09", Status::UnknownInstruction),
            (b"\x00\x03\x00\x00\x01\x00\x00", Status::WrongLength),
        ] {
            assert_eq!(read(message), Err(status), "{message:02x?}");
        }
    }

    #[test]
    fn a_length_that_does_not_add_up() {
        for (length, behind) in [(0, 1), (0, 3), (1, 0), (1, 2), (2, 1), (2, 3), (65_535, 1)] {
            let [high, low] = u16::to_be_bytes(length);
            let message = [vec![0, 1, 0, 0, 0, high, low], vec![0; behind]].concat();
            assert_eq!(read(&message), Err(Status::WrongLength), "{message:02x?}");
        }
    }

    #[test]
    fn status_bytes() {
        assert_eq!(Status::UnknownClass.bytes(), [0x6E, 0x00]);
    }
}
