//! Random CBOR items, canonical ones and damaged ones.

use super::random::Random;
use super::text;
use super::tree::{head, head_of_form, Entries, Tree, BYTES, NEGATIVE, TAG, TEXT, UNSIGNED};

/// Puts the entries of a map into canonical order and leaves out keys that are there twice. On keys
/// as they are written here the order is that of their bytes (request 2026-03), so the model's own
/// comparison is not needed.
pub fn in_order(mut entries: Entries) -> Entries {
    entries.sort_by_key(|(key, _)| key.encoded());
    entries.dedup_by(|one, other| one.0 == other.0);
    entries
}

/// A number, often one where a longer form begins.
pub fn number(random: &mut Random) -> u64 {
    match random.below(4) {
        0 => random.below(24) as u64,
        1 => random.pick(&[
            0,
            23,
            24,
            0xFF,
            0x100,
            0xFFFF,
            0x1_0000,
            0xFFFF_FFFF,
            0x1_0000_0000,
            u64::MAX,
        ]),
        2 => random.below(300) as u64,
        _ => random.number() >> random.below(64),
    }
}

fn string_length(random: &mut Random) -> usize {
    match random.below(8) {
        0 => random.pick(&[0, 23, 24, 31, 32, 33, 255, 256]),
        _ => random.below(12),
    }
}

/// Text is often long enough for a reader that takes several bytes at a time.
fn text_length(random: &mut Random) -> usize {
    match random.below(4) {
        0 => random.below(60),
        _ => string_length(random),
    }
}

/// A byte or text string with a content of this many bytes.
pub fn string(random: &mut Random, major: u8, length: usize) -> Tree {
    Tree::String(major, content(random, major, length))
}

/// A byte or text string that takes `room` bytes, which is not 0, or one byte less where none does.
pub fn string_in(random: &mut Random, major: u8, room: usize) -> Tree {
    // The string's own head is 1, 2 or 3 bytes long.
    let length = match room {
        0..=24 => room - 1,
        25..=257 => room - 2,
        _ => room - 3,
    };
    string(random, major, length)
}

/// The content of a byte string is any bytes, that of a text string is good text.
fn content(random: &mut Random, major: u8, length: usize) -> Vec<u8> {
    if major == TEXT {
        text::good(random, length).into_bytes()
    } else {
        random.bytes(length)
    }
}

/// A key of one of the kinds that keys have.
pub fn key(random: &mut Random) -> Tree {
    match random.below(4) {
        0 => Tree::Number(UNSIGNED, number(random)),
        1 => Tree::Number(NEGATIVE, number(random)),
        2 => {
            let length = string_length(random);
            string(random, BYTES, length)
        }
        _ => {
            let length = text_length(random);
            string(random, TEXT, length)
        }
    }
}

/// A canonical item that nests at most `levels` deep.
pub fn canonical(random: &mut Random, levels: usize) -> Tree {
    let kinds = if levels == 0 { 5 } else { 8 };
    match random.below(kinds) {
        0..=3 => key(random),
        4 => Tree::Raw(vec![random.pick(&[0xF4, 0xF5, 0xF6, 0xF7])]),
        5 | 6 if random.once_in(2) => {
            let count = count(random);
            Tree::Array((0..count).map(|_| canonical(random, levels - 1)).collect())
        }
        _ => {
            let entries = (0..count(random))
                .map(|_| (key(random), canonical(random, levels - 1)))
                .collect();
            Tree::Map(in_order(entries))
        }
    }
}

/// Mostly a few, now and then enough for a head of two or three bytes.
fn count(random: &mut Random) -> usize {
    match random.below(40) {
        0 => random.pick(&[23, 24, 25, 40]),
        _ => random.below(4),
    }
}

/// An item that nests exactly `depth` deep.
pub fn nested(random: &mut Random, depth: usize) -> Tree {
    if depth == 0 {
        return canonical(random, 0);
    }
    if depth == 1 && random.once_in(3) {
        return Tree::Raw(vec![random.pick(&[0x80, 0xA0])]);
    }
    let inner = nested(random, depth - 1);
    if random.once_in(2) {
        let mut entries = vec![inner];
        if random.once_in(2) {
            entries.insert(random.below(2), canonical(random, 0));
        }
        Tree::Array(entries)
    } else {
        let mut entries = vec![(key(random), inner)];
        if random.once_in(2) {
            entries.push((key(random), canonical(random, 0)));
        }
        Tree::Map(in_order(entries))
    }
}

/// The bytes of an item that breaks the canonical form by itself.
pub fn breach(random: &mut Random) -> Tree {
    match random.below(9) {
        0..=5 => bad_head(random),
        6 => too_long(random),
        _ => bad_text(random),
    }
}

/// An item with a head that no canonical item has.
pub fn bad_head(random: &mut Random) -> Tree {
    let mut out = Vec::new();
    match random.below(6) {
        0 | 1 => longer_form(random, &mut out),
        // an indefinite length, with its end
        2 => {
            let major = random.below(4) as u8 + BYTES;
            out.extend_from_slice(&[major << 5 | 31, 0xFF]);
        }
        // a tag, well formed
        3 => {
            head(TAG, number(random), &mut out);
            out.push(0x00);
        }
        // a float or a simple value outside 20 to 23
        4 => {
            let first = random.pick(&[0xE0, 0xF3, 0xF8, 0xF9, 0xFA, 0xFB, 0xFF]);
            out.push(first);
            let content: usize = match first {
                0xF8 => 1,
                0xF9 => 2,
                0xFA => 4,
                0xFB => 8,
                _ => 0,
            };
            out.extend_from_slice(&random.bytes(content));
        }
        // a head that RFC 7049 leaves unassigned
        _ => out.push((random.below(8) as u8) << 5 | random.pick(&[28, 29, 30])),
    }
    Tree::Raw(out)
}

/// The head of a string, an array or a map with a length or count that no message holds.
fn too_long(random: &mut Random) -> Tree {
    let mut out = Vec::new();
    let major = random.below(4) as u8 + BYTES;
    let argument = random.pick(&[
        7_609,
        0xFFFF,
        0x7FFF_FFFF,
        0xFFFF_FFFF,
        0x1_0000_0000,
        i64::MAX as u64,
        u64::MAX - 1,
        u64::MAX,
    ]);
    head(major, argument, &mut out);
    Tree::Raw(out)
}

/// A text string that is no text.
pub fn bad_text(random: &mut Random) -> Tree {
    if random.once_in(2) {
        return Tree::String(TEXT, text::bad(random));
    }
    // It ends inside a character; the rest follows, as an array's or a map's head can.
    let (text, missing) = text::cut(random);
    let mut out = Tree::String(TEXT, text).encoded();
    out.extend_from_slice(&missing);
    Tree::Raw(out)
}

/// Writes an item whose head is longer than needed.
fn longer_form(random: &mut Random, out: &mut Vec<u8>) {
    let major = random.below(6) as u8;
    let (form, argument) = random.pick(&[
        (1, 0),
        (1, 6),
        (1, 23),
        (2, 24),
        (2, 255),
        (4, 256),
        (4, 0xFFFF),
        (8, 0x1_0000),
        (8, 0xFFFF_FFFF),
        (8, 0),
    ]);
    head_of_form(major, argument, form, out);
    if major == BYTES || major == TEXT {
        let length = argument.min(300) as usize;
        out.extend_from_slice(&content(random, major, length));
    }
}

/// Puts a breach of the canonical form somewhere into a tree: a bad item, a key of another kind, or
/// keys that are out of order or there twice.
pub fn damage(random: &mut Random, tree: &mut Tree) {
    match tree {
        Tree::Array(entries) if !entries.is_empty() && !random.once_in(4) => {
            let at = random.below(entries.len());
            damage(random, &mut entries[at]);
        }
        Tree::Map(entries) if !entries.is_empty() && !random.once_in(8) => {
            let at = random.below(entries.len());
            match random.below(8) {
                0 => entries.swap(at, 0),
                1 => entries.reverse(),
                2 => entries.insert(at, entries[at].clone()),
                3 => entries[at].0 = canonical(random, 1),
                4 => entries[at].0 = breach(random),
                _ => damage(random, &mut entries[at].1),
            }
        }
        _ => *tree = breach(random),
    }
}

/// Changes, drops or adds a few bytes.
pub fn damage_bytes(random: &mut Random, bytes: &mut Vec<u8>) {
    for _ in 0..=random.below(3) {
        let at = random.below(bytes.len() + 1);
        let byte = random.number() as u8;
        match random.below(5) {
            0 if at < bytes.len() => bytes[at] ^= 1 << random.below(8),
            1 if at < bytes.len() => bytes[at] = byte,
            2 if at < bytes.len() => {
                bytes.remove(at);
            }
            3 => bytes.truncate(at),
            _ => bytes.insert(at, byte),
        }
    }
}
