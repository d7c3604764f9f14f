//! The real program against the model on CBOR, table by table: kinds of parameters, entries of key
//! 4, orders of keys, levels, and forms of lengths.

mod common;

use common::{agree, hex};
use model::trial::parameters::{algorithm_lists, minus, supported, values};
use model::trial::tree::{Entries, Tree};

const MAKE_CREDENTIAL: u8 = 0x01;
const GET_ASSERTION: u8 = 0x02;

/// Arguments on both sides of where a longer form begins, and some that are larger than any message.
const EDGES: [u64; 13] = [
    0,
    1,
    23,
    24,
    255,
    256,
    65_535,
    65_536,
    0xFFFF_FFFF,
    0x1_0000_0000,
    0x1_0000_0001,
    i64::MAX as u64,
    u64::MAX,
];

fn check(command: u8, entries: Entries) -> String {
    let message = [vec![command], Tree::Map(entries).encoded()].concat();
    format!("check {}", hex(&message))
}

/// A command's known keys with good values, each of its place.
fn good_parameters(command: u8) -> Vec<Tree> {
    let hash = Tree::bytes(vec![0xAB; 32]);
    let (map, array) = (Tree::Map(vec![]), Tree::Array(vec![]));
    let (bytes, number) = (Tree::bytes(vec![]), Tree::unsigned(1));
    if command == MAKE_CREDENTIAL {
        let algorithms = Tree::Array(vec![supported()]);
        let tail = vec![array, map.clone(), map.clone(), bytes, number];
        [vec![hash, map.clone(), map, algorithms], tail].concat()
    } else {
        let tail = vec![array, map.clone(), map, bytes, number];
        [vec![Tree::text("example.org"), hash], tail].concat()
    }
}

#[test]
fn every_pair_of_parameters() {
    let mut lines = Vec::new();
    for command in [MAKE_CREDENTIAL, GET_ASSERTION] {
        let good: Vec<Option<Tree>> = good_parameters(command).into_iter().map(Some).collect();
        let absent = vec![None; good.len()];
        let mut choices: Vec<Option<Tree>> = values().into_iter().map(Some).collect();
        choices.push(None);
        for others in [good, absent] {
            for first in 0..others.len() {
                for second in first..others.len() {
                    for one in &choices {
                        for other in &choices {
                            let mut values = others.clone();
                            values[first] = one.clone();
                            values[second] = other.clone();
                            let entries = (1..).map(Tree::unsigned).zip(values);
                            let present = entries.filter_map(|(key, value)| Some((key, value?)));
                            lines.push(check(command, present.collect()));
                        }
                    }
                }
            }
        }
    }
    agree(lines);
}

#[test]
fn every_entry_of_key_4() {
    let mut lines = Vec::new();
    for list in algorithm_lists() {
        let mut values = good_parameters(MAKE_CREDENTIAL);
        values[3] = Tree::Array(list);
        let entries = (1..).map(Tree::unsigned).zip(values);
        lines.push(check(MAKE_CREDENTIAL, entries.collect()));
    }
    agree(lines);
}

#[test]
fn every_command_byte() {
    let mut lines = Vec::new();
    for command in 0..=0xFF_u8 {
        for tail in ["", "a0", "80", "00", "a000", "a1", "ff"] {
            lines.push(format!("check {command:02x}{tail}"));
        }
    }
    for size in [7_608, 7_609, 7_610, 8_000, 9_000] {
        for first in ["00", "01a0", "04"] {
            lines.push(format!(
                "check {first}{}",
                "00".repeat(size - first.len() / 2)
            ));
        }
    }
    agree(lines);
}

#[test]
fn every_order_of_two_keys() {
    let mut keys: Vec<Tree> = EDGES.map(Tree::unsigned).to_vec();
    keys.extend(EDGES.map(minus));
    let mut contents = ["", "a", "b", "aa", "ab", "a longer key than twenty-four"]
        .map(String::from)
        .to_vec();
    // lengths on both sides of a longer form, where the shorter key has the higher bytes
    for (letter, length) in [("z", 23), ("a", 24), ("z", 255), ("a", 256), ("b", 256)] {
        contents.push(letter.repeat(length));
    }
    for content in contents {
        keys.push(Tree::text(&content));
        keys.push(Tree::bytes(content.into_bytes()));
    }
    keys.extend([0x80, 0xA0, 0xF4, 0xF7].map(|byte| Tree::Raw(vec![byte])));
    let mut lines = Vec::new();
    for one in &keys {
        for other in &keys {
            let entries = [one, other].map(|key| (key.clone(), Tree::unsigned(0)));
            let map = Tree::Map(entries.to_vec()).encoded();
            lines.push(format!("item 1 {}", hex(&map)));
        }
    }
    agree(lines);
}

#[test]
fn every_nesting() {
    let mut lines = Vec::new();
    for depth in 0..=6 {
        for shape in 0..1 << depth {
            for innermost in ["00", "80", "a0", "60"] {
                let outer: String = (0..depth)
                    .map(|level| {
                        if shape >> level & 1 == 0 {
                            "81"
                        } else {
                            "a100"
                        }
                    })
                    .collect();
                for levels in 0..=4 {
                    lines.push(format!("item {levels} {outer}{innermost}"));
                }
                lines.push(format!("check 02a119ffff{outer}{innermost}"));
            }
        }
    }
    agree(lines);
}

#[test]
fn every_form_of_a_length() {
    let mut lines = Vec::new();
    for major in 0..8_u8 {
        for (low, form) in [(24, 1), (25, 2), (26, 4), (27, 8)] {
            for argument in EDGES {
                for content in [0, 1, 2, 24, 255, 256, 512] {
                    let mut item = vec![major << 5 | low];
                    item.extend_from_slice(&argument.to_be_bytes()[8 - form..]);
                    item.resize(item.len() + content, 0);
                    lines.push(format!("item 4 {}", hex(&item)));
                }
            }
        }
    }
    agree(lines);
}
