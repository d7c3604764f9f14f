//! CBOR items as they are written, and where each item stands once it is written.

/// Major types.
pub const UNSIGNED: u8 = 0;
pub const NEGATIVE: u8 = 1;
pub const BYTES: u8 = 2;
pub const TEXT: u8 = 3;
pub const ARRAY: u8 = 4;
pub const MAP: u8 = 5;
pub const TAG: u8 = 6;

/// The keys of a map with their values.
pub type Entries = Vec<(Tree, Tree)>;

/// An item as it is written. `Raw` bytes are written as they are, canonical or not.
#[derive(Clone, Debug, PartialEq, Eq)]
pub enum Tree {
    Number(u8, u64),
    String(u8, Vec<u8>),
    Array(Vec<Tree>),
    Map(Entries),
    Raw(Vec<u8>),
}

impl Tree {
    pub fn unsigned(value: u64) -> Tree {
        Tree::Number(UNSIGNED, value)
    }

    pub fn text(text: &str) -> Tree {
        Tree::String(TEXT, text.as_bytes().to_vec())
    }

    pub fn bytes(bytes: Vec<u8>) -> Tree {
        Tree::String(BYTES, bytes)
    }

    pub fn encoded(&self) -> Vec<u8> {
        let mut out = Vec::new();
        self.encode(&mut out);
        out
    }

    /// Writes the item behind these bytes.
    pub fn written_behind(&self, before: &[u8]) -> Written {
        let mut written = Written {
            bytes: before.to_vec(),
            spots: Vec::new(),
        };
        written.item(self, vec![], false);
        written
    }

    fn encode(&self, out: &mut Vec<u8>) {
        self.encode_own(out);
        for (inside, _) in self.inside() {
            inside.encode(out);
        }
    }

    /// Writes what of an item is no other item: its head and, of a string, its content.
    fn encode_own(&self, out: &mut Vec<u8>) {
        match self {
            Tree::Number(major, value) => head(*major, *value, out),
            Tree::String(major, content) => {
                head(*major, content.len() as u64, out);
                out.extend_from_slice(content);
            }
            Tree::Array(entries) => head(ARRAY, entries.len() as u64, out),
            Tree::Map(entries) => head(MAP, entries.len() as u64, out),
            Tree::Raw(bytes) => out.extend_from_slice(bytes),
        }
    }

    /// The items that stand directly inside this one, and whether each is a key.
    fn inside(&self) -> Vec<(&Tree, bool)> {
        match self {
            Tree::Array(entries) => entries.iter().map(|entry| (entry, false)).collect(),
            Tree::Map(entries) => entries
                .iter()
                .flat_map(|(key, value)| [(key, true), (value, false)])
                .collect(),
            Tree::Number(..) | Tree::String(..) | Tree::Raw(_) => Vec::new(),
        }
    }
}

/// Where an item stands among the bytes that are written.
#[derive(Clone, Debug, PartialEq, Eq)]
pub struct Spot {
    /// The way to the item: the number of the item to go into, of the one to go into there, and so
    /// on. The items inside a map are its first key, that key's value, its second key, and so on.
    pub path: Vec<usize>,
    pub is_key: bool,
    /// The place of the item's first byte.
    pub place: usize,
    /// Where the item's head and, of a string, its content end.
    pub own_end: usize,
    /// Where the item ends, with all that stands inside it.
    pub end: usize,
}

/// What is written, and the items in it from left to right.
#[derive(Clone, Debug)]
pub struct Written {
    pub bytes: Vec<u8>,
    pub spots: Vec<Spot>,
}

impl Written {
    /// The item at the end of this way, which there is.
    pub fn spot(&self, path: &[usize]) -> &Spot {
        self.spots
            .iter()
            .find(|spot| spot.path == path)
            .unwrap_or_else(|| panic!("no item at {path:?}"))
    }

    fn item(&mut self, tree: &Tree, path: Vec<usize>, is_key: bool) {
        let index = self.spots.len();
        let place = self.bytes.len();
        tree.encode_own(&mut self.bytes);
        self.spots.push(Spot {
            path: path.clone(),
            is_key,
            place,
            own_end: self.bytes.len(),
            end: self.bytes.len(),
        });
        for (number, (inside, is_key)) in tree.inside().into_iter().enumerate() {
            self.item(inside, [&path[..], &[number]].concat(), is_key);
        }
        self.spots[index].end = self.bytes.len();
    }
}

/// Writes a head in its shortest form.
pub fn head(major: u8, argument: u64, out: &mut Vec<u8>) {
    let form = match argument {
        0..=0x17 => 0,
        0x18..=0xFF => 1,
        0x100..=0xFFFF => 2,
        0x1_0000..=0xFFFF_FFFF => 4,
        _ => 8,
    };
    head_of_form(major, argument, form, out);
}

/// Writes a head whose argument takes `form` bytes: 0, 1, 2, 4 or 8.
pub fn head_of_form(major: u8, argument: u64, form: usize, out: &mut Vec<u8>) {
    let low = match form {
        0 => argument as u8,
        1 => 24,
        2 => 25,
        4 => 26,
        _ => 27,
    };
    out.push(major << 5 | low);
    out.extend_from_slice(&argument.to_be_bytes()[8 - form..]);
}

#[cfg(test)]
mod tests {
    use super::*;

    #[test]
    fn where_items_stand() {
        let array = Tree::Array(vec![Tree::unsigned(24), Tree::text("ab")]);
        let map = Tree::Map(vec![(Tree::unsigned(1), array)]);
        let written = map.written_behind(&[0x02]);
        assert_eq!(written.bytes, b"\x02\xA1\x01\x82\x18\x18\x62ab");
        let places: Vec<[usize; 3]> = written
            .spots
            .iter()
            .map(|spot| [spot.place, spot.own_end, spot.end])
            .collect();
        assert_eq!(
            places,
            [[1, 2, 9], [2, 3, 3], [3, 4, 9], [4, 6, 6], [6, 9, 9]]
        );
        assert!(written.spot(&[0]).is_key);
        assert_eq!(written.spot(&[1, 1]).place, 6);
        assert_eq!(written.bytes[1..], map.encoded());
    }
}
