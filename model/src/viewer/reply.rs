//! Takes a reply apart: a status byte, then one canonical map or nothing.

use std::ops::Range;

use crate::cbor::{Breach, Kind, Reader, LEVELS};
use crate::command::Status;
use crate::packet::LONGEST;

/// The place of the map, behind the status byte.
const MAP: usize = 1;

/// The parts of a reply.
#[derive(Clone, Debug, PartialEq, Eq)]
pub struct Reply {
    pub status: u8,
    /// Where the map stands, if there is one.
    pub map: Option<Range<usize>>,
}

/// Takes a reply apart, or gives the status of one that is none.
pub fn apart(reply: &[u8]) -> Result<Reply, Status> {
    if reply.len() > LONGEST {
        return Err(Status::InvalidLength);
    }
    let map = match *reply {
        [] => return Err(Status::InvalidLength),
        [_] => None,
        [_, ..] => {
            one_map(reply).map_err(|_| Status::InvalidCbor)?;
            Some(MAP..reply.len())
        }
    };
    Ok(Reply {
        status: reply[0],
        map,
    })
}

/// Behind the status byte there is exactly one canonical map.
fn one_map(reply: &[u8]) -> Result<(), Breach> {
    let mut reader = Reader::new(reply, MAP);
    let head = reader.head()?;
    if head.kind != Kind::Map {
        return Err(Breach { place: head.place });
    }
    reader.skip_content(head, LEVELS)?;
    reader.finish()
}

/// An entry of a reply's map: where its key and its value stand.
#[derive(Clone, Debug, PartialEq, Eq)]
pub struct Entry {
    pub key: Range<usize>,
    pub value: Range<usize>,
}

/// A reader of a reply's map that remembers its place between two entries.
#[derive(Clone, Debug)]
pub struct Entries<'a> {
    reader: Reader<'a>,
    left: u64,
}

/// Goes through the map of a reply; one without a map has no entries.
pub fn entries(reply: &[u8]) -> Result<Entries<'_>, Status> {
    let map = apart(reply)?.map;
    let mut reader = Reader::new(reply, MAP);
    let left = match map {
        Some(_) => reader.head().map_or(0, |head| head.argument),
        None => 0,
    };
    Ok(Entries { reader, left })
}

impl Iterator for Entries<'_> {
    type Item = Entry;

    fn next(&mut self) -> Option<Entry> {
        self.left = self.left.checked_sub(1)?;
        Some(Entry {
            key: self.item()?,
            value: self.item()?,
        })
    }
}

impl Entries<'_> {
    /// Reads the next key or value, which has the canonical form.
    fn item(&mut self) -> Option<Range<usize>> {
        let start = self.reader.place();
        self.reader.skip(LEVELS - 1).ok()?;
        Some(start..self.reader.place())
    }
}

#[cfg(test)]
mod tests {
    use super::*;

    #[test]
    fn a_status_and_one_map_or_nothing() {
        for (reply, status, map) in [
            (&b"\x00"[..], 0x00, None),
            (b"\xFF", 0xFF, None),
            (b"\x00\xA0", 0x00, Some(1..2)),
            (b"\x2D\xA1\x00\x81\x81\x80", 0x2D, Some(1..6)),
        ] {
            assert_eq!(apart(reply), Ok(Reply { status, map }));
        }
    }

    #[test]
    fn what_is_no_reply() {
        for reply in [
            &b"\x00\x80"[..],
            b"\x00\x00",
            b"\x00\xFF",
            b"\x00\xA0\x00",
            b"\x00\xA1\x00",
            b"\x00\xA1\x18\x00\x00",
            b"\x00\xA2\x60\x00\x00\x00",
            b"\x00\xA1\x00\x61\xFF",
            b"\x00\xA1\x00\x81\x81\x81\x80",
        ] {
            assert_eq!(apart(reply), Err(Status::InvalidCbor), "{reply:02x?}");
            assert_eq!(entries(reply).err(), Some(Status::InvalidCbor));
        }
    }

    #[test]
    fn sizes() {
        // a map of one byte string, which is canonical whatever the size
        let of_size = |size: usize| {
            let [high, low] = u16::to_be_bytes(size as u16 - 6);
            [vec![0x00, 0xA1, 0x00, 0x59, high, low], vec![0; size - 6]].concat()
        };
        let longest = Reply {
            status: 0x00,
            map: Some(1..LONGEST),
        };
        assert_eq!(apart(&of_size(LONGEST)), Ok(longest));
        let whole = entries(&of_size(LONGEST)).map(Iterator::count);
        assert_eq!(whole, Ok(1));
        for reply in [&[][..], &of_size(LONGEST + 1), &[0xFF; LONGEST + 1]] {
            assert_eq!(apart(reply), Err(Status::InvalidLength));
            assert_eq!(entries(reply).err(), Some(Status::InvalidLength));
        }
    }

    #[test]
    fn the_entries_of_a_map() {
        let reply = b"\x00\xA3\x01\x82\x00\x00\x18\x18\xA1\x00\x60\x62ab\xF5";
        let places: Vec<_> = entries(reply)
            .expect("a reply")
            .map(|Entry { key, value }| [key, value])
            .collect();
        assert_eq!(places, [[2..3, 3..6], [6..8, 8..11], [11..14, 14..15]]);
        for reply in [&b"\x00"[..], b"\x00\xA0"] {
            assert_eq!(entries(reply).map(Iterator::count), Ok(0));
        }
    }

    #[test]
    fn the_place_is_remembered() {
        let mut entries = entries(b"\x00\xA2\x01\x02\x03\x04").expect("a reply");
        assert_eq!(entries.next().map(|entry| entry.value), Some(3..4));
        let mut again = entries.clone();
        assert_eq!(again.next().map(|entry| entry.key), Some(4..5));
        assert_eq!(
            entries.next(),
            Some(Entry {
                key: 4..5,
                value: 5..6
            })
        );
        assert_eq!([entries.next(), entries.next()], [None, None]);
    }
}
