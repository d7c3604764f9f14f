//! The canonical form of CBOR items (document 01, "CBOR commands"; RFC 7049; X.1278 for
//! the order of keys; RFC 3629 for text).
//!
//! A [`Reader`] goes over the bytes once, from left to right, so the first breach it meets is the
//! one that counts. What a caller wants to know of an item it learns while the item is read:
//! [`Reader::array`] and [`Reader::map`] hand each entry and each value to a function that reads
//! it. A place is counted from the first of the bytes that the reader is given.

use std::cmp::Ordering;

/// Maps and arrays nest at most four deep.
pub const LEVELS: u8 = 4;

/// The bytes are no canonical item: the one that begins at this place breaks the form. A missing
/// item would begin where the bytes end.
#[derive(Clone, Copy, Debug, PartialEq, Eq)]
pub struct Breach {
    pub place: usize,
}

/// What an item is; its first byte decides.
#[derive(Clone, Copy, Debug, PartialEq, Eq)]
pub enum Kind {
    Unsigned,
    Negative,
    Bytes,
    Text,
    Array,
    Map,
    Simple,
}

/// The head of an item: where it stands, its kind and its number, length or count.
#[derive(Clone, Copy, Debug, PartialEq, Eq)]
pub struct Head {
    /// The place of the item's first byte.
    pub place: usize,
    pub kind: Kind,
    pub argument: u64,
}

impl Head {
    /// The item of this head breaks the canonical form.
    fn breach(&self) -> Breach {
        Breach { place: self.place }
    }
}

/// An item: its head and the bytes after the head.
#[derive(Clone, Copy, Debug, PartialEq, Eq)]
pub struct Item<'a> {
    pub head: Head,
    pub content: &'a [u8],
}

/// Reads the one item at the start of the bytes and gives its length.
pub fn item_length(bytes: &[u8], levels: u8) -> Result<usize, Breach> {
    let mut reader = Reader::new(bytes, 0);
    reader.skip(levels)?;
    Ok(reader.at)
}

/// The order of encoded keys: the lower major type first, then the shorter, then byte by byte
/// (X.1278, clause 11).
pub fn key_order(one: &[u8], other: &[u8]) -> Ordering {
    let major = |key: &[u8]| key.first().map(|first| first >> 5);
    major(one)
        .cmp(&major(other))
        .then(one.len().cmp(&other.len()))
        .then_with(|| one.cmp(other))
}

/// Bytes and how far they are read.
#[derive(Clone, Debug)]
pub struct Reader<'a> {
    bytes: &'a [u8],
    at: usize,
}

impl<'a> Reader<'a> {
    /// Reads these bytes from the place `at` on, which is not beyond their end.
    pub fn new(bytes: &'a [u8], at: usize) -> Self {
        Reader { bytes, at }
    }

    /// The place of the next byte.
    pub fn place(&self) -> usize {
        self.at
    }

    /// Every byte is read; if not, the breach is at the first that is left over.
    pub fn finish(self) -> Result<(), Breach> {
        if self.at < self.bytes.len() {
            return Err(Breach { place: self.at });
        }
        Ok(())
    }

    /// Reads one item with this many levels left.
    pub fn item(&mut self, levels: u8) -> Result<Item<'a>, Breach> {
        let head = self.head()?;
        let start = self.at;
        self.skip_content(head, levels)?;
        Ok(Item {
            head,
            content: &self.bytes[start..self.at],
        })
    }

    /// Reads one item of which nothing is to be known.
    pub fn skip(&mut self, levels: u8) -> Result<(), Breach> {
        let head = self.head()?;
        self.skip_content(head, levels)
    }

    /// Reads an item's head.
    #[inline]
    pub fn head(&mut self) -> Result<Head, Breach> {
        let place = self.at;
        let (kind, argument) = self.kind_and_argument().ok_or(Breach { place })?;
        Ok(Head {
            place,
            kind,
            argument,
        })
    }

    /// Reads what a head says: no indefinite length, tag or float; of simple values only 20 to 23.
    #[inline]
    fn kind_and_argument(&mut self) -> Option<(Kind, u64)> {
        let [first] = self.take()?;
        let kind = match first {
            0x00..=0x1B => Kind::Unsigned,
            0x20..=0x3B => Kind::Negative,
            0x40..=0x5B => Kind::Bytes,
            0x60..=0x7B => Kind::Text,
            0x80..=0x9B => Kind::Array,
            0xA0..=0xBB => Kind::Map,
            0xF4..=0xF7 => Kind::Simple,
            _ => return None,
        };
        Some((kind, self.argument(first)?))
    }

    /// Reads what follows a head that is read already.
    pub fn skip_content(&mut self, head: Head, levels: u8) -> Result<(), Breach> {
        match head.kind {
            Kind::Unsigned | Kind::Negative | Kind::Simple => Ok(()),
            Kind::Bytes | Kind::Text => self.string(head),
            Kind::Array => self.array(head, levels, Self::skip),
            Kind::Map => self.map(head, levels, |reader, _, levels| reader.skip(levels)),
        }
    }

    /// Reads an array's entries; `entry` reads exactly one item with the levels it is given.
    ///
    /// Every item has a byte, so a count beyond the bytes there are ends in a breach.
    pub fn array(
        &mut self,
        head: Head,
        levels: u8,
        mut entry: impl FnMut(&mut Self, u8) -> Result<(), Breach>,
    ) -> Result<(), Breach> {
        let inside = levels.checked_sub(1).ok_or(head.breach())?;
        for _ in 0..head.argument {
            entry(self, inside)?;
        }
        Ok(())
    }

    /// Reads a map's keys, each strictly after the one before, and their values; `value` is told
    /// the encoded key and reads exactly one item with the levels it is given.
    pub fn map(
        &mut self,
        head: Head,
        levels: u8,
        mut value: impl FnMut(&mut Self, &'a [u8], u8) -> Result<(), Breach>,
    ) -> Result<(), Breach> {
        let inside = levels.checked_sub(1).ok_or(head.breach())?;
        // No bytes at all come before every key, so the first key needs no case of its own.
        let mut last: &[u8] = &[];
        for _ in 0..head.argument {
            let place = self.at;
            let key = self.key()?;
            if key_order(last, key) != Ordering::Less {
                return Err(Breach { place });
            }
            value(self, key, inside)?;
            last = key;
        }
        Ok(())
    }

    /// Reads a key, an integer, byte or text string, and gives its encoded bytes.
    fn key(&mut self) -> Result<&'a [u8], Breach> {
        let head = self.head()?;
        match head.kind {
            Kind::Unsigned | Kind::Negative => {}
            Kind::Bytes | Kind::Text => self.string(head)?,
            Kind::Array | Kind::Map | Kind::Simple => return Err(head.breach()),
        }
        Ok(&self.bytes[head.place..self.at])
    }

    /// Passes over the content of a byte string, or of a text string, which is UTF-8.
    fn string(&mut self, head: Head) -> Result<(), Breach> {
        let length = usize::try_from(head.argument).map_err(|_| head.breach())?;
        let rest = &self.bytes[self.at..];
        let content = rest.get(..length).ok_or(head.breach())?;
        if head.kind == Kind::Text && std::str::from_utf8(content).is_err() {
            return Err(head.breach());
        }
        self.at += length;
        Ok(())
    }

    /// Reads the number, length or count of a head, which has the shortest form.
    #[inline]
    fn argument(&mut self, first: u8) -> Option<u64> {
        let (argument, least) = match first & 0x1F {
            short @ 0..=23 => return Some(u64::from(short)),
            24 => (u64::from(u8::from_be_bytes(self.take()?)), 24),
            25 => (u64::from(u16::from_be_bytes(self.take()?)), 1 << 8),
            26 => (u64::from(u32::from_be_bytes(self.take()?)), 1 << 16),
            27 => (u64::from_be_bytes(self.take()?), 1 << 32),
            _ => return None,
        };
        (argument >= least).then_some(argument)
    }

    /// Takes the next `N` bytes.
    fn take<const N: usize>(&mut self) -> Option<[u8; N]> {
        let chunk = self.bytes[self.at..].first_chunk()?;
        self.at += N;
        Some(*chunk)
    }
}

#[cfg(test)]
mod tests {
    use super::*;

    /// What the reading of an item with a breach at this place gives.
    fn breach_at(place: usize) -> Result<usize, Breach> {
        Err(Breach { place })
    }

    #[test]
    fn levels() {
        assert_eq!(item_length(&[0x81, 0x81, 0x81, 0x80], LEVELS), Ok(4));
        let one_more = [0x81, 0x81, 0x81, 0x81, 0x80];
        assert_eq!(item_length(&one_more, LEVELS), breach_at(4));
        assert_eq!(item_length(&[0x80], 0), breach_at(0));
        assert_eq!(item_length(&[0xA0], 0), breach_at(0));
        assert_eq!(item_length(&[0x00], 0), Ok(1));
    }

    #[test]
    fn key_order() {
        let twice = [0xA2, 0x00, 0x00, 0x00, 0x00];
        assert_eq!(item_length(&twice, LEVELS), breach_at(3));
        let shorter_first = [0xA2, 0x60, 0x00, 0x18, 0x18, 0x00];
        assert_eq!(item_length(&shorter_first, LEVELS), breach_at(3));
        let lower_major_first = [0xA2, 0x18, 0x18, 0x00, 0x60, 0x00];
        assert_eq!(item_length(&lower_major_first, LEVELS), Ok(6));
        let longer_first = [0xA2, 0x18, 0x18, 0x00, 0x00, 0x00];
        assert_eq!(item_length(&longer_first, LEVELS), breach_at(4));
    }

    #[test]
    fn the_first_breach_counts() {
        for (item, place) in [
            // a key out of order comes before its value, and after the value before it
            (&[0xA2, 0x01, 0x00, 0x00, 0xFF][..], 3),
            (&[0xA2, 0x01, 0xFF, 0x00, 0x00], 2),
            // an item inside is named and not what it stands in
            (&[0x82, 0x00, 0x81, 0xA1, 0x61, 0xFF, 0x00], 4),
            (&[0xA1, 0x00, 0x82, 0x00, 0x62, b'a', 0xFF], 4),
            // a key of another kind, whatever stands in it
            (&[0xA1, 0x81, 0xFF, 0x00], 1),
            (&[0xA2, 0x00, 0x00, 0xF5, 0x00], 3),
            // a level too many, whatever stands in it
            (&[0x81, 0x81, 0x81, 0x82, 0x00, 0x81, 0xFF], 5),
        ] {
            assert_eq!(item_length(item, LEVELS), breach_at(place), "{item:02x?}");
        }
    }

    #[test]
    fn what_is_cut() {
        for (item, place) in [
            // a missing item would begin where the bytes end
            (&[][..], 0),
            (&[0x81], 1),
            (&[0x83, 0x00, 0x61, b'a'], 4),
            (&[0xA1, 0x00], 2),
            (&[0x82, 0x81, 0xA1, 0x00, 0xA1], 5),
            // a head or a content that is cut short is there
            (&[0x19, 0x01], 0),
            (&[0x82, 0x00, 0x1B, 0xFF, 0xFF], 2),
            (&[0x42, 0x00], 0),
            (&[0xA1, 0x62, b'a'], 1),
            (&[0xA1, 0x00, 0x63, 0xE2, 0x82], 2),
        ] {
            assert_eq!(item_length(item, LEVELS), breach_at(place), "{item:02x?}");
        }
    }

    #[test]
    fn bytes_left_over() {
        let bytes = [0x01, 0x80, 0x00, 0x00];
        let mut reader = Reader::new(&bytes, 1);
        assert_eq!(reader.skip(LEVELS), Ok(()));
        assert_eq!(reader.clone().finish(), Err(Breach { place: 2 }));
        assert_eq!(reader.skip(LEVELS), Ok(()));
        assert_eq!(reader.skip(LEVELS), Ok(()));
        assert_eq!(reader.finish(), Ok(()));
    }

    #[test]
    fn shortest_forms() {
        let longer_key = [0xA1, 0x18, 0x01, 0x00];
        assert_eq!(item_length(&longer_key, LEVELS), breach_at(1));
        for (argument, length) in [(0x17, None), (0x18, Some(2))] {
            assert_eq!(item_length(&[0x18, argument], 0).ok(), length);
        }
        assert_eq!(item_length(&[0x19, 0x00, 0xFF], 0), breach_at(0));
        assert_eq!(item_length(&[0x39, 0x01, 0x00], 0), Ok(3));
        assert_eq!(item_length(&[0x1A, 0, 0, 0xFF, 0xFF], 0), breach_at(0));
        assert_eq!(item_length(&[0x1A, 0, 1, 0, 0], 0), Ok(5));
        let long = [0x1B, 0, 0, 0, 0, 0xFF, 0xFF, 0xFF, 0xFF];
        assert_eq!(item_length(&long, 0), breach_at(0));
        assert_eq!(item_length(&[0x1B, 0, 0, 0, 1, 0, 0, 0, 0], 0), Ok(9));
    }

    #[test]
    fn kinds_left_out() {
        for first in [0x1C, 0x1F, 0x5F, 0x7F, 0x9F, 0xBF, 0xC0, 0xDB, 0xF3, 0xF8] {
            assert_eq!(item_length(&[first; 16], LEVELS), breach_at(0));
        }
        for first in 0xF9..=0xFF {
            assert_eq!(item_length(&[first; 16], LEVELS), breach_at(0));
        }
        for first in 0xF4..=0xF7 {
            assert_eq!(item_length(&[first], 0), Ok(1));
        }
    }

    /// Whether a string with this content, of a few bytes, is taken as a value and as a key.
    fn taken(major: u8, content: &[u8]) -> [bool; 2] {
        let string = [&[major << 5 | content.len() as u8], content].concat();
        let map = [&[0xA1], &string[..], &[0x00]].concat();
        [&string, &map].map(|item| item_length(item, 1) == Ok(item.len()))
    }

    #[test]
    fn text_is_utf_8() {
        // the first and the last sequence of each row of RFC 3629's table
        for text in [
            &[0x00, 0x7F][..],
            &[0xC2, 0x80, 0xDF, 0xBF],
            &[0xE0, 0xA0, 0x80, 0xE0, 0xBF, 0xBF],
            &[0xE1, 0x80, 0x80, 0xEC, 0xBF, 0xBF],
            &[0xED, 0x80, 0x80, 0xED, 0x9F, 0xBF],
            &[0xEE, 0x80, 0x80, 0xEF, 0xBF, 0xBF],
            &[0xF0, 0x90, 0x80, 0x80, 0xF0, 0xBF, 0xBF, 0xBF],
            &[0xF1, 0x80, 0x80, 0x80, 0xF3, 0xBF, 0xBF, 0xBF],
            &[0xF4, 0x80, 0x80, 0x80, 0xF4, 0x8F, 0xBF, 0xBF],
        ] {
            assert_eq!(taken(3, text), [true; 2], "{text:02x?}");
        }
        for text in [
            &[0x80][..],               // begins with a tail
            &[0xC0, 0x80],             // overlong
            &[0xE0, 0x9F, 0xBF],       // overlong
            &[0xF0, 0x8F, 0xBF, 0xBF], // overlong
            &[0xED, 0xA0, 0x80],       // a surrogate
            &[0xF4, 0x90, 0x80, 0x80], // above 10FFFF
            &[b'a', 0xE2, 0x82],       // cut by the text's end
            &[0xE2, 0x82, b'a'],       // cut by a letter
        ] {
            assert_eq!(taken(3, text), [false; 2], "{text:02x?}");
            assert_eq!(taken(2, text), [true; 2], "{text:02x?}");
        }
        // an empty array stands where the text's last sequence would go on
        let text_then_array = [0x82, 0x61, 0xC3, 0x80];
        assert_eq!(item_length(&text_then_array, LEVELS), breach_at(1));
    }

    #[test]
    fn counts_beyond_the_bytes() {
        // the item after an array's or a map's head is no canonical one
        for (first, place) in [(0x5B, 0), (0x7B, 0), (0x9B, 9), (0xBB, 9)] {
            let mut claims_all = [0xFF; 12];
            claims_all[0] = first;
            assert_eq!(item_length(&claims_all, LEVELS), breach_at(place));
        }
    }
}
