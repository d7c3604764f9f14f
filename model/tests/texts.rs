//! The real program against the model on texts, which are UTF-8: short texts of any bytes,
//! sequences at every offset and cut by the text's end, and bad text in every place of an item and
//! of a command.

mod common;

use common::{agree, hex};
use model::trial::text::ROW_ENDS;
use model::trial::tree::{Tree, BYTES, NEGATIVE, TEXT};

const MAKE_CREDENTIAL: u8 = 0x01;
const GET_ASSERTION: u8 = 0x02;

/// Bytes on both sides of the bounds in RFC 3629's table of sequences.
const BOUNDS: [u8; 24] = [
    0x00, 0x7F, 0x80, 0x8F, 0x90, 0x9F, 0xA0, 0xBF, 0xC0, 0xC1, 0xC2, 0xDF, 0xE0, 0xE1, 0xEC, 0xED,
    0xEE, 0xEF, 0xF0, 0xF1, 0xF3, 0xF4, 0xF5, 0xFF,
];

/// Sequences that no text has.
const BAD: [&[u8]; 19] = [
    // a byte that begins none
    &[0x80],
    &[0xBF],
    &[0xC0],
    &[0xC1],
    &[0xF5],
    &[0xFF],
    // overlong forms
    &[0xC0, 0x80],
    &[0xC1, 0xBF],
    &[0xE0, 0x80, 0x80],
    &[0xE0, 0x9F, 0xBF],
    &[0xF0, 0x80, 0x80, 0x80],
    &[0xF0, 0x8F, 0xBF, 0xBF],
    // surrogates
    &[0xED, 0xA0, 0x80],
    &[0xED, 0xBF, 0xBF],
    // above 10FFFF
    &[0xF4, 0x90, 0x80, 0x80],
    &[0xF7, 0xBF, 0xBF, 0xBF],
    // a tail too many
    &[0xC2, 0x80, 0x80],
    &[0xEF, 0xBF, 0xBF, 0xBF],
    &[0xF4, 0x8F, 0xBF, 0xBF, 0xBF],
];

/// A good text and bad ones, for the places in a command.
const TEXTS: [&[u8]; 4] = [b"\xC3\xA9", b"\xC0\x80", b"\xE2\x82", b"\xFF"];

fn text(content: &[u8]) -> Tree {
    Tree::String(TEXT, content.to_vec())
}

/// Reads an item alone.
fn item(tree: &Tree) -> String {
    format!("item 4 {}", hex(&tree.encoded()))
}

/// The characters at the ends of rows, what is left of them when they are cut, and bad sequences.
fn sequences() -> Vec<Vec<u8>> {
    let characters = ROW_ENDS.map(|end| end.to_string().into_bytes());
    let cut_or_whole = characters
        .iter()
        .flat_map(|character| (1..=character.len()).map(|end| &character[..end]));
    cut_or_whole.chain(BAD).map(<[u8]>::to_vec).collect()
}

#[test]
fn every_text_of_one_or_two_bytes() {
    let mut lines = Vec::new();
    for first in 0..=0xFF {
        lines.push(item(&text(&[first])));
        for second in 0..=0xFF {
            lines.push(item(&text(&[first, second])));
        }
    }
    agree(lines);
}

#[test]
fn every_bound_in_a_text_of_three_or_four_bytes() {
    let mut lines = Vec::new();
    for first in BOUNDS {
        for second in BOUNDS {
            for third in BOUNDS {
                lines.push(item(&text(&[first, second, third])));
                for fourth in [0x00, 0x7F, 0x80, 0xBF, 0xC0, 0xC2, 0xFF] {
                    lines.push(item(&text(&[first, second, third, fourth])));
                }
            }
        }
    }
    agree(lines);
}

#[test]
fn every_sequence_at_every_offset() {
    let mut lines = Vec::new();
    for sequence in sequences() {
        for lead in ["", "é", "€", "😀"] {
            for before in 0..=24 {
                for after in [0, 1, 8, 16] {
                    let before = [lead.as_bytes(), &vec![b'a'; before]].concat();
                    let content = [&before[..], &sequence, &vec![b'z'; after]].concat();
                    lines.push(item(&text(&content)));
                }
            }
        }
    }
    agree(lines);
}

#[test]
fn every_offset_in_a_long_text() {
    let mut lines = Vec::new();
    for length in [63, 64, 65, 127, 128, 129, 200] {
        for sequence in [&b"\x80"[..], b"\xFF", b"\xE2\x82", "é".as_bytes()] {
            for at in 0..=length - sequence.len() {
                let mut content = vec![b'a'; length];
                content[at..][..sequence.len()].copy_from_slice(sequence);
                lines.push(item(&text(&content)));
            }
        }
    }
    agree(lines);
}

#[test]
fn every_end_of_a_text_before_what_would_go_on_with_it() {
    // heads of arrays and maps look like the rest of a sequence
    let nexts = [
        [0x00; 3],
        [0x80; 3],
        [0xBF; 3],
        [0x8F, 0xBF, 0xBF],
        [0x90, 0x80, 0x80],
        [0x9F, 0xBF, 0xBF],
        [0xA0, 0x80, 0x80],
    ];
    let mut lines = Vec::new();
    for end in sequences() {
        for before in 0..=16 {
            let text = text(&[vec![b'a'; before], end.clone()].concat());
            for next in nexts.map(|next| Tree::Raw(next.to_vec())) {
                let after = hex(&next.encoded());
                lines.push(format!("{}{after}", item(&text)));
                lines.push(item(&Tree::Array(vec![text.clone(), next.clone()])));
                lines.push(item(&Tree::Map(vec![(text.clone(), next)])));
            }
        }
    }
    agree(lines);
}

/// A string in every place where an item can have one.
fn in_every_place(string: Tree) -> Vec<Tree> {
    let zero = || Tree::unsigned(0);
    let in_array = |inner| Tree::Array(vec![zero(), inner]);
    let as_key = Tree::Map(vec![(string.clone(), zero())]);
    let as_value = Tree::Map(vec![(zero(), string.clone())]);
    let later_key = vec![(zero(), zero()), (string.clone(), zero())];
    vec![
        Tree::Array(vec![string.clone(), zero()]),
        in_array(string.clone()),
        in_array(in_array(in_array(in_array(string.clone())))),
        in_array(in_array(in_array(as_key.clone()))),
        Tree::Map(vec![(zero(), Tree::Map(vec![(zero(), as_value.clone())]))]),
        Tree::Map(later_key),
        string,
        as_key,
        as_value,
    ]
}

#[test]
fn every_place_and_length_of_a_string() {
    let mut lines = Vec::new();
    for major in [BYTES, TEXT] {
        for sequence in [&b"\xFF"[..], b"\xC0\x80", b"\xE2\x82", "é".as_bytes()] {
            for length in [2, 3, 23, 24, 255, 256, 7_000] {
                let last = length - sequence.len();
                for at in [0, last / 2, last] {
                    let mut content = vec![b'a'; length];
                    content[at..][..sequence.len()].copy_from_slice(sequence);
                    let places = in_every_place(Tree::String(major, content));
                    lines.extend(places.iter().map(item));
                }
            }
        }
    }
    agree(lines);
}

/// A command with these values of the keys from 1 on, and an unknown key.
fn check(command: u8, values: Vec<Option<Tree>>, unknown: (Tree, Tree)) -> String {
    let known = (1..).map(Tree::unsigned).zip(values);
    let present = known.filter_map(|(key, value)| Some((key, value?)));
    let entries = present.chain([unknown]).collect();
    let message = [vec![command], Tree::Map(entries).encoded()].concat();
    format!("check {}", hex(&message))
}

/// An unknown key that is this text, that has it as its value, and that has nothing to do with it.
fn unknown_keys(text: &Tree) -> [(Tree, Tree); 3] {
    let (ten, zero) = (Tree::unsigned(10), Tree::unsigned(0));
    [
        (text.clone(), zero.clone()),
        (ten.clone(), text.clone()),
        (ten, zero),
    ]
}

/// A good hash, and those that get 0x03, 0x11 and 0x14.
fn hashes() -> [Option<Tree>; 4] {
    let hash = |length| Some(Tree::bytes(vec![0xAB; length]));
    [hash(32), hash(31), Some(Tree::unsigned(0)), None]
}

/// Keys 2 and 3 of a MakeCredential, with this text in one of them or in neither.
fn maps(text: &Tree) -> [[Tree; 2]; 5] {
    let empty = || Tree::Map(vec![]);
    let value = || Tree::Map(vec![(Tree::text("name"), text.clone())]);
    let key = || Tree::Map(vec![(text.clone(), Tree::unsigned(0))]);
    [
        [empty(), empty()],
        [value(), empty()],
        [key(), empty()],
        [empty(), value()],
        [empty(), key()],
    ]
}

/// Key 4 of a MakeCredential: a good one, those that get 0x26, 0x11 and 0x14, and one that has this
/// text.
fn algorithms(text: &Tree) -> [Option<Tree>; 5] {
    let algorithm = |alg, kind| {
        let alg = (Tree::text("alg"), Tree::Number(NEGATIVE, alg));
        let entry = Tree::Map(vec![alg, (Tree::text("type"), kind)]);
        Some(Tree::Array(vec![entry]))
    };
    [
        algorithm(6, Tree::text("public-key")),
        algorithm(7, Tree::text("public-key")),
        Some(Tree::unsigned(0)),
        None,
        algorithm(6, text.clone()),
    ]
}

#[test]
fn every_fault_of_a_make_credential_beside_a_text() {
    let mut lines = Vec::new();
    for text in TEXTS.map(text) {
        for hash in hashes() {
            for [key_2, key_3] in maps(&text) {
                for key_4 in algorithms(&text) {
                    for unknown in unknown_keys(&text) {
                        let (key_2, key_3) = (Some(key_2.clone()), Some(key_3.clone()));
                        let values = vec![hash.clone(), key_2, key_3, key_4.clone()];
                        lines.push(check(MAKE_CREDENTIAL, values, unknown));
                    }
                }
            }
        }
    }
    agree(lines);
}

#[test]
fn every_fault_of_a_get_assertion_beside_a_text() {
    let mut lines = Vec::new();
    for text in TEXTS.map(text) {
        for name in [Some(text.clone()), Some(Tree::text("example.org")), None] {
            for hash in hashes() {
                for unknown in unknown_keys(&text) {
                    let values = vec![name.clone(), hash.clone()];
                    lines.push(check(GET_ASSERTION, values, unknown));
                }
            }
        }
    }
    agree(lines);
}
