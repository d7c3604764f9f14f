//! Faults of a command's parameters, put where they are known to be.
//!
//! The command keeps its canonical form. A fault is named by the way to its item, since another one
//! can still shift its place.

use super::commands::{Command, MAKE_CREDENTIAL};
use super::item;
use super::random::Random;
use super::tree::{Entries, Tree, ARRAY, BYTES, MAP, NEGATIVE, TEXT, UNSIGNED};

/// The kinds of MakeCredential's known keys, from 1 on.
const MAKE_CREDENTIAL_KINDS: [u8; 9] = [BYTES, MAP, MAP, ARRAY, ARRAY, MAP, MAP, BYTES, UNSIGNED];
/// The kinds of GetAssertion's known keys, from 1 on.
const GET_ASSERTION_KINDS: [u8; 7] = [TEXT, BYTES, ARRAY, MAP, MAP, BYTES, UNSIGNED];

/// A fault: its status, and the way to the item it is at.
#[derive(Clone, Debug, PartialEq, Eq)]
pub struct Fault {
    pub status: u8,
    pub path: Vec<usize>,
}

/// Puts a fault of one class into a command. Not every command can have it, nor every one of its
/// keys; nothing changes then.
pub type Plant = fn(&mut Random, &mut Command) -> Option<Fault>;

/// The faults of a known key's value.
pub const OF_VALUES: [Plant; 5] = [
    wrong_kind,
    wrong_length,
    entry_not_a_map,
    absent_from_entry,
    wrong_kind_in_entry,
];

/// A known key's value is of another kind.
pub fn wrong_kind(random: &mut Random, command: &mut Command) -> Option<Fault> {
    let kinds: &[u8] = match command.byte {
        MAKE_CREDENTIAL => &MAKE_CREDENTIAL_KINDS,
        _ => &GET_ASSERTION_KINDS,
    };
    let key = random.below(kinds.len());
    let number = number_of(&command.entries, &Tree::unsigned(1 + key as u64))?;
    command.entries[number].1 = of_another_kind(random, &[kinds[key]]);
    Some(at_value(0x11, number))
}

/// The hash is not 32 bytes long.
pub fn wrong_length(random: &mut Random, command: &mut Command) -> Option<Fault> {
    let number = number_of_hash(command)?;
    let length = random.pick(&[0, 1, 31, 33, 64, 255, 256]);
    command.entries[number].1 = Tree::bytes(random.bytes(length));
    Some(at_value(0x03, number))
}

/// An entry of key 4 is not a map.
pub fn entry_not_a_map(random: &mut Random, command: &mut Command) -> Option<Fault> {
    let (path, entry) = any_algorithm(random, command)?;
    *entry = of_another_kind(random, &[MAP]);
    Some(Fault { status: 0x11, path })
}

/// An entry of key 4 has no "alg", whatever its "type", or no "type".
pub fn absent_from_entry(random: &mut Random, command: &mut Command) -> Option<Fault> {
    let (path, entry) = any_algorithm(random, command)?;
    let Tree::Map(entry) = entry else {
        return None;
    };
    if random.once_in(2) {
        entry.retain(|(key, _)| *key != Tree::text("alg"));
        spoil_type(random, entry);
    } else {
        entry.retain(|(key, _)| *key != Tree::text("type"));
    }
    Some(Fault { status: 0x14, path })
}

/// An entry of key 4 has an "alg" that is not an integer, whatever its "type", or a "type" that is
/// not text.
pub fn wrong_kind_in_entry(random: &mut Random, command: &mut Command) -> Option<Fault> {
    let (mut path, entry) = any_algorithm(random, command)?;
    let Tree::Map(entry) = entry else {
        return None;
    };
    let (name, kinds) = random.pick(&[("alg", &[UNSIGNED, NEGATIVE][..]), ("type", &[TEXT])]);
    let number = number_of(entry, &Tree::text(name))?;
    entry[number].1 = of_another_kind(random, kinds);
    // "alg" comes before "type", so it keeps its number.
    if name == "alg" {
        spoil_type(random, entry);
    }
    path.extend(way_to_value(number));
    Some(Fault { status: 0x11, path })
}

/// A required key is absent, which is at the outer map.
pub fn absent_key(random: &mut Random, command: &mut Command) -> Option<Fault> {
    let required = match command.byte {
        MAKE_CREDENTIAL => 4,
        _ => 2,
    };
    let key = Tree::unsigned(1 + random.below(required) as u64);
    command.entries.retain(|entry| entry.0 != key);
    Some(Fault {
        status: 0x14,
        path: vec![],
    })
}

/// No entry of key 4 is the algorithm the key has.
pub fn unsupported(_: &mut Random, command: &mut Command) -> Option<Fault> {
    let number = number_of_key_4(command)?;
    let alg = (Tree::text("alg"), Tree::Number(NEGATIVE, 6));
    let kind = (Tree::text("type"), Tree::text("public-key"));
    let Tree::Array(list) = &mut command.entries[number].1 else {
        return None;
    };
    list.retain(|entry| match entry {
        Tree::Map(entry) => !(entry.contains(&alg) && entry.contains(&kind)),
        _ => true,
    });
    Some(at_value(0x26, number))
}

/// A canonical item of none of these kinds.
pub fn of_another_kind(random: &mut Random, kinds: &[u8]) -> Tree {
    loop {
        let item = item::canonical(random, 1);
        if !kinds.contains(&(item.encoded()[0] >> 5)) {
            return item;
        }
    }
}

/// The way to the hash.
pub fn way_to_hash(command: &Command) -> Option<Vec<usize>> {
    number_of_hash(command).map(way_to_value)
}

/// The way to the value of the entry of this number.
fn way_to_value(number: usize) -> Vec<usize> {
    vec![2 * number + 1]
}

fn at_value(status: u8, number: usize) -> Fault {
    let path = way_to_value(number);
    Fault { status, path }
}

fn number_of(entries: &Entries, key: &Tree) -> Option<usize> {
    entries.iter().position(|entry| entry.0 == *key)
}

fn number_of_hash(command: &Command) -> Option<usize> {
    let key = match command.byte {
        MAKE_CREDENTIAL => 1,
        _ => 2,
    };
    number_of(&command.entries, &Tree::unsigned(key))
}

fn number_of_key_4(command: &Command) -> Option<usize> {
    number_of(&command.entries, &Tree::unsigned(4)).filter(|_| command.byte == MAKE_CREDENTIAL)
}

/// One of key 4's entries, and the way to it.
fn any_algorithm<'a>(
    random: &mut Random,
    command: &'a mut Command,
) -> Option<(Vec<usize>, &'a mut Tree)> {
    let number = number_of_key_4(command)?;
    match &mut command.entries[number].1 {
        Tree::Array(list) if !list.is_empty() => {
            let at = random.below(list.len());
            let path = [way_to_value(number), vec![at]].concat();
            Some((path, &mut list[at]))
        }
        _ => None,
    }
}

/// Takes the "type" away or makes it of another kind, or does neither.
fn spoil_type(random: &mut Random, entry: &mut Entries) {
    let kind = Tree::text("type");
    match random.below(3) {
        0 => entry.retain(|(key, _)| *key != kind),
        1 => {
            if let Some(number) = number_of(entry, &kind) {
                entry[number].1 = of_another_kind(random, &[TEXT]);
            }
        }
        _ => {}
    }
}
