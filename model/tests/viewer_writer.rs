//! The writer of the viewer's end, table by table: the program and the model against answers that
//! come from neither. Of each part it is known how it was written, and so what the key would say.

mod viewer_common;

use model::packet::LONGEST;
use model::trial::cases::Cases;
use model::trial::item;
use model::trial::parameters::{algorithm_lists, minus, supported, values};
use model::trial::random::Random;
use model::trial::run::seed_or;
use model::trial::tree::{Tree, ARRAY, BYTES, MAP, NEGATIVE, TEXT, UNSIGNED};
use viewer_common::{hex, hold};

/// A command: its word, its byte, the kinds of its known keys from 1 on, how many of them are
/// required, and which is the hash.
struct Rules {
    word: &'static str,
    byte: u8,
    kinds: &'static [u8],
    required: usize,
    hash: usize,
}

const MAKE: Rules = Rules {
    word: "make",
    byte: 0x01,
    kinds: &[BYTES, MAP, MAP, ARRAY, ARRAY, MAP, MAP, BYTES, UNSIGNED],
    required: 4,
    hash: 1,
};

const GET: Rules = Rules {
    word: "get",
    byte: 0x02,
    kinds: &[TEXT, BYTES, ARRAY, MAP, MAP, BYTES, UNSIGNED],
    required: 2,
    hash: 2,
};

/// The parts of a command, the first being key 1's.
type Parts = Vec<Option<Tree>>;

impl Rules {
    /// The status of the key where it refuses these parts; no part is `Raw` but simple values.
    fn status(&self, parts: &Parts) -> Option<u8> {
        let mut supported = self.word == "get";
        for (key, part) in (1..).zip(parts) {
            let Some(part) = part else {
                continue;
            };
            if major(part) != self.kinds[key - 1] {
                return Some(0x11);
            }
            if key == self.hash && part.encoded().len() != 34 {
                return Some(0x03);
            }
            if let (Tree::Array(entries), "make", 4) = (part, self.word, key) {
                for entry in entries {
                    match algorithm_status(entry) {
                        Ok(is_supported) => supported |= is_supported,
                        Err(status) => return Some(status),
                    }
                }
            }
        }
        if parts[..self.required].contains(&None) {
            return Some(0x14);
        }
        (!supported).then_some(0x26)
    }

    /// The command of these parts.
    fn written(&self, parts: &Parts) -> Vec<u8> {
        let count = parts.iter().flatten().count() as u8;
        let mut written = vec![self.byte, 0xA0 + count];
        for (key, part) in (1..).zip(parts) {
            if let Some(part) = part {
                written.push(key);
                written.extend_from_slice(&part.encoded());
            }
        }
        written
    }

    /// The line that names the parts in this order of their keys.
    fn line(&self, parts: &Parts, order: impl Iterator<Item = usize>) -> String {
        let mut line = self.word.to_string();
        for key in order {
            if let Some(part) = &parts[key - 1] {
                line.push_str(&format!(" {key}={}", hex(&part.encoded())));
            }
        }
        line
    }

    /// What these parts get where there is room enough.
    fn answer(&self, parts: &Parts) -> String {
        match self.status(parts) {
            Some(status) => format!("refused {status:02x}"),
            None => format!("bytes {}", hex(&self.written(parts))),
        }
    }

    fn expect(&self, cases: &mut Cases, parts: &Parts) {
        let last_first = (1..=parts.len()).rev();
        cases.push(self.line(parts, last_first), self.answer(parts));
    }

    /// Good parts of every known key.
    fn good(&self) -> Parts {
        let of_kind = |(key, &kind): (usize, &u8)| match kind {
            _ if key == self.hash => Tree::bytes(vec![0xAB; 32]),
            ARRAY if self.word == "make" && key == 4 => Tree::Array(vec![supported()]),
            ARRAY => Tree::Array(vec![]),
            MAP => Tree::Map(vec![]),
            TEXT => Tree::text("example.org"),
            BYTES => Tree::bytes(vec![]),
            _ => Tree::unsigned(1),
        };
        (1..).zip(self.kinds).map(of_kind).map(Some).collect()
    }
}

fn major(item: &Tree) -> u8 {
    item.encoded()[0] >> 5
}

/// Whether an entry of key 4 is the algorithm that the key has, or its status.
fn algorithm_status(entry: &Tree) -> Result<bool, u8> {
    let Tree::Map(entry) = entry else {
        return Err(0x11);
    };
    let value = |name| entry.iter().find(|(key, _)| *key == Tree::text(name));
    let (_, alg) = value("alg").ok_or(0x14)?;
    if ![UNSIGNED, NEGATIVE].contains(&major(alg)) {
        return Err(0x11);
    }
    let (_, kind) = value("type").ok_or(0x14)?;
    if major(kind) != TEXT {
        return Err(0x11);
    }
    Ok(*alg == minus(6) && *kind == Tree::text("public-key"))
}

#[test]
fn every_pair_of_parts() {
    let mut cases = Cases::default();
    let mut choices: Parts = values().into_iter().map(Some).collect();
    choices.push(None);
    for rules in [MAKE, GET] {
        let good = rules.good();
        let absent = vec![None; good.len()];
        for others in [good, absent] {
            for first in 0..others.len() {
                for second in first..others.len() {
                    for one in &choices {
                        for other in &choices {
                            let mut parts = others.clone();
                            parts[first] = one.clone();
                            parts[second] = other.clone();
                            rules.expect(&mut cases, &parts);
                        }
                    }
                }
            }
        }
    }
    hold(cases);
}

#[test]
fn every_entry_of_key_4() {
    let mut cases = Cases::default();
    for list in algorithm_lists() {
        let mut parts = MAKE.good();
        parts[3] = Some(Tree::Array(list));
        MAKE.expect(&mut cases, &parts);
        // A later key's fault does not go before an earlier one's.
        parts[8] = Some(minus(0));
        MAKE.expect(&mut cases, &parts);
    }
    hold(cases);
}

/// Bytes that are not exactly one canonical item with three levels.
fn bad_parts() -> Vec<Tree> {
    [
        &b""[..],
        b"\xFF",
        b"\x18",
        b"\x18\x17",
        b"\x42\x00",
        b"\x61\x80",
        b"\x62\xC0\x80",
        b"\x81",
        b"\xA1\x00",
        b"\xA2\x01\x00\x00\x00",
        b"\xA2\x60\x00\x00\x00",
        b"\xA2\x00\x00\x00\x00",
        b"\xA1\x80\x00",
        b"\xC0\x00",
        b"\xF8\x20",
        b"\xF9\x00\x00",
        b"\x9F\xFF",
        b"\x00\x00",
        b"\xA0\xA0",
        b"\x80\xFF",
        // A string of one byte begins, which would take the next part's key for its content.
        b"\x00\x61",
        b"\x40\x41",
        b"\x81\x81\x81\x80",
        b"\xA1\x00\xA1\x00\xA1\x00\xA0",
    ]
    .map(|bytes| Tree::Raw(bytes.to_vec()))
    .to_vec()
}

#[test]
fn a_bad_part_comes_before_every_other_fault() {
    let mut cases = Cases::default();
    for rules in [MAKE, GET] {
        let count = rules.kinds.len();
        let wrong = vec![Some(Tree::Raw(vec![0xF5])); count];
        let long = vec![Some(Tree::bytes(vec![0; 1_000])); count];
        for others in [rules.good(), vec![None; count], wrong, long] {
            for at in 0..count {
                for bad in bad_parts() {
                    let mut parts = others.clone();
                    parts[at] = Some(bad);
                    for room in [0, LONGEST] {
                        cases.push(format!("room {room}"), "");
                        cases.push(rules.line(&parts, 1..=count), "refused 12");
                    }
                }
            }
        }
    }
    hold(cases);
}

#[test]
fn parts_together_are_not_one_item() {
    let mut cases = Cases::default();
    for rules in [MAKE, GET] {
        let count = rules.kinds.len();
        // Written behind each other with the later one's key between them, these would be a map or
        // an array.
        for (one, other) in [
            ("a100", ""),
            ("81", ""),
            ("a1", "00"),
            ("82", "00"),
            ("41", ""),
        ] {
            for first in 1..count {
                let line = format!("{} {first}={one} {}={other}", rules.word, first + 1);
                cases.push(line, "refused 12");
            }
        }
    }
    hold(cases);
}

#[test]
fn three_levels_are_left_below_the_outer_map() {
    let mut random = Random::new(seed_or(0).wrapping_add(40));
    let mut cases = Cases::default();
    for rules in [MAKE, GET] {
        for key in 1..=rules.kinds.len() {
            for depth in (0..=5).flat_map(|depth| [depth; 40]) {
                let mut parts = rules.good();
                parts[key - 1] = Some(item::nested(&mut random, depth));
                if depth > 3 {
                    cases.push(rules.line(&parts, 1..=parts.len()), "refused 12");
                } else if (rules.word, key) != ("make", 4) {
                    rules.expect(&mut cases, &parts);
                }
            }
        }
    }
    hold(cases);
}

/// Parts of a good command of this size, in which this key's part takes what is missing.
fn of_size(rules: &Rules, key: usize, size: usize) -> Parts {
    let mut random = Random::new(size as u64);
    let mut parts = rules.good();
    parts[key - 1] = None;
    let missing = size - rules.written(&parts).len() - 1;
    let mut string = |major, room| item::string_in(&mut random, major, room);
    parts[key - 1] = Some(match rules.kinds[key - 1] {
        ARRAY => Tree::Array(vec![string(BYTES, missing - 1)]),
        MAP => Tree::Map(vec![(Tree::unsigned(0), string(TEXT, missing - 2))]),
        kind => string(kind, missing),
    });
    parts
}

#[test]
fn sizes_and_rooms() {
    let mut cases = Cases::default();
    let keys = [(MAKE, [2, 5, 7, 8]), (GET, [1, 3, 5, 6])];
    for (rules, key) in keys
        .iter()
        .flat_map(|(rules, keys)| keys.map(|key| (rules, key)))
    {
        for size in [
            300,
            1_000,
            LONGEST - 1,
            LONGEST,
            LONGEST + 1,
            8_192,
            8_193,
            12_000,
        ] {
            let parts = of_size(rules, key, size);
            let written = rules.written(&parts);
            assert_eq!(written.len(), size);
            for room in [
                0,
                size - 1,
                size,
                size + 1,
                LONGEST - 1,
                LONGEST,
                LONGEST + 1,
                8_192,
            ] {
                if room > 8_192 {
                    continue;
                }
                cases.push(format!("room {room}"), "");
                let answer = if size > LONGEST || size > room {
                    "refused 8".to_string()
                } else {
                    format!("bytes {}", hex(&written))
                };
                cases.push(rules.line(&parts, 1..=parts.len()), answer);
                // A status goes before the size.
                let mut refused = parts.clone();
                refused[rules.hash - 1] = Some(Tree::bytes(vec![0; 31]));
                cases.push(rules.line(&refused, 1..=parts.len()), "refused 03");
                refused[rules.hash - 1] = None;
                cases.push(rules.line(&refused, 1..=parts.len()), "refused 14");
            }
        }
    }
    hold(cases);
}

#[test]
fn no_algorithm_goes_before_the_size() {
    let mut cases = Cases::default();
    for size in [1_000, LONGEST, LONGEST + 1, 12_000] {
        let mut parts = of_size(&MAKE, 8, size);
        parts[3] = Some(Tree::Array(vec![]));
        for room in [0, LONGEST, 8_192] {
            cases.push(format!("room {room}"), "");
            cases.push(MAKE.line(&parts, 1..=parts.len()), "refused 26");
        }
    }
    hold(cases);
}

#[test]
fn every_set_of_keys_in_any_order() {
    let mut random = Random::new(seed_or(0).wrapping_add(41));
    let mut cases = Cases::default();
    for rules in [MAKE, GET] {
        for set in 0..1 << rules.kinds.len() {
            let mut parts = rules.good();
            for (at, part) in parts.iter_mut().enumerate() {
                if set >> at & 1 == 0 {
                    *part = None;
                }
            }
            let answer = rules.answer(&parts);
            for _ in 0..4 {
                let mut order: Vec<usize> = (1..=parts.len()).collect();
                for at in 1..order.len() {
                    order.swap(at, random.below(at + 1));
                }
                cases.push(rules.line(&parts, order.into_iter()), &*answer);
            }
        }
    }
    hold(cases);
}
