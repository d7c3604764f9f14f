//! Random CBOR commands: good ones, and ones with a fault in a parameter, in the canonical form or
//! in their bytes.

use super::faults;
use super::item;
use super::random::Random;
use super::tree::{Entries, Tree, BYTES, NEGATIVE, TEXT, UNSIGNED};
use crate::packet::LONGEST;

pub const MAKE_CREDENTIAL: u8 = 0x01;
const GET_ASSERTION: u8 = 0x02;
pub const GET_INFO: u8 = 0x04;

/// A command byte and the map that follows it.
#[derive(Clone, Debug)]
pub struct Command {
    pub byte: u8,
    pub entries: Entries,
}

/// Sizes around which packets are added, and the largest.
const SIZES: [usize; 10] = [
    57,
    58,
    116,
    117,
    175,
    176,
    1_000,
    4_000,
    LONGEST - 1,
    LONGEST,
];

/// Any command, in about half of the cases a good one.
pub fn command(random: &mut Random) -> Vec<u8> {
    match random.below(20) {
        0 => vec![GET_INFO],
        1 => {
            let (any, more) = (random.number() as u8, random.below(4));
            let command = random.pick(&[GET_INFO, any]);
            [vec![command], random.bytes(more)].concat()
        }
        2 => {
            let command = random.pick(&[MAKE_CREDENTIAL, GET_ASSERTION]);
            let levels = random.below(3);
            [vec![command], item::canonical(random, levels).encoded()].concat()
        }
        _ => with_parameters(random),
    }
}

/// A good MakeCredential or GetAssertion.
pub fn good(random: &mut Random) -> Command {
    loop {
        let mut command = sound(random);
        if random.once_in(3) {
            let any = random.below(LONGEST);
            let size = random.pick(&[any, any, LONGEST - 1, LONGEST]);
            pad(random, &mut command, size);
        }
        if Tree::Map(command.entries.clone()).encoded().len() < LONGEST {
            return command;
        }
    }
}

fn with_parameters(random: &mut Random) -> Vec<u8> {
    let mut command = sound(random);
    if random.once_in(20) {
        let any = 1 + random.below(9) as u64;
        command.add(Tree::unsigned(any), item::canonical(random, 3));
    }
    if random.once_in(20) {
        let too_deep = random.pick(&[4, 5]);
        command.add(item::key(random), item::nested(random, too_deep));
    }
    if random.once_in(3) {
        parameter_faults(random, &mut command);
    }
    if random.once_in(3) {
        let size = random.pick(&SIZES);
        pad(random, &mut command, size);
    }
    let mut map = Tree::Map(command.entries);
    if random.once_in(6) {
        item::damage(random, &mut map);
    }
    let mut message = [vec![command.byte], map.encoded()].concat();
    if random.once_in(8) {
        item::damage_bytes(random, &mut message);
    }
    message.truncate(LONGEST);
    message
}

/// A MakeCredential or GetAssertion that has no fault, of any length.
pub fn sound(random: &mut Random) -> Command {
    let byte = random.pick(&[MAKE_CREDENTIAL, GET_ASSERTION]);
    let entries = if byte == MAKE_CREDENTIAL {
        make_credential(random)
    } else {
        get_assertion(random)
    };
    let mut command = Command { byte, entries };
    for _ in 0..random.below(3) {
        command.add(unknown_key(random), item::canonical(random, 3));
    }
    if random.once_in(8) {
        // Three levels are left inside the outer map.
        let depth = random.pick(&[2, 3, 3]);
        command.add(unknown_key(random), item::nested(random, depth));
    }
    command
}

impl Command {
    /// Adds a key with its value, in canonical order, unless the key is there.
    fn add(&mut self, key: Tree, value: Tree) {
        self.entries.push((key, value));
        self.entries = item::in_order(std::mem::take(&mut self.entries));
    }
}

/// One or two faults of the parameters; the canonical form stays.
pub fn parameter_faults(random: &mut Random, command: &mut Command) {
    for _ in 0..=random.below(2) {
        let of_values = random.pick(&faults::OF_VALUES);
        let fault = random.pick(&[
            of_values,
            of_values,
            faults::absent_key,
            faults::unsupported,
        ]);
        fault(random, command);
    }
}

fn unknown_key(random: &mut Random) -> Tree {
    loop {
        let key = item::key(random);
        if !matches!(key, Tree::Number(UNSIGNED, 1..=9)) {
            return key;
        }
    }
}

/// The known keys of MakeCredential with values of their kinds.
fn make_credential(random: &mut Random) -> Entries {
    let mut entries = vec![
        (Tree::unsigned(1), Tree::bytes(random.bytes(32))),
        (Tree::unsigned(2), map(random)),
        (Tree::unsigned(3), map(random)),
        (Tree::unsigned(4), algorithms(random)),
    ];
    optional(random, &mut entries, 5, array);
    optional(random, &mut entries, 6, map);
    optional(random, &mut entries, 7, map);
    optional(random, &mut entries, 8, bytes);
    optional(random, &mut entries, 9, unsigned);
    entries
}

/// The known keys of GetAssertion with values of their kinds.
fn get_assertion(random: &mut Random) -> Entries {
    let mut entries = vec![
        (Tree::unsigned(1), Tree::text("example.org")),
        (Tree::unsigned(2), Tree::bytes(random.bytes(32))),
    ];
    optional(random, &mut entries, 3, array);
    optional(random, &mut entries, 4, map);
    optional(random, &mut entries, 5, map);
    optional(random, &mut entries, 6, bytes);
    optional(random, &mut entries, 7, unsigned);
    entries
}

fn optional(random: &mut Random, entries: &mut Entries, key: u64, value: fn(&mut Random) -> Tree) {
    if random.once_in(3) {
        entries.push((Tree::unsigned(key), value(random)));
    }
}

fn map(random: &mut Random) -> Tree {
    let entries = (0..random.below(3))
        .map(|_| (item::key(random), item::canonical(random, 2)))
        .collect();
    Tree::Map(item::in_order(entries))
}

fn array(random: &mut Random) -> Tree {
    let count = random.below(3);
    Tree::Array((0..count).map(|_| item::canonical(random, 2)).collect())
}

fn bytes(random: &mut Random) -> Tree {
    let length = random.below(40);
    Tree::bytes(random.bytes(length))
}

fn unsigned(random: &mut Random) -> Tree {
    Tree::unsigned(item::number(random))
}

/// Key 4, with the algorithm the key has; its entries have other keys too.
fn algorithms(random: &mut Random) -> Tree {
    let mut entries: Vec<Tree> = (0..random.below(3))
        .map(|_| other_algorithm(random))
        .collect();
    let at = random.below(entries.len() + 1);
    let (alg, kind) = (Tree::Number(NEGATIVE, 6), Tree::text("public-key"));
    entries.insert(at, algorithm(random, alg, kind));
    if random.once_in(40) {
        let more = (0..random.below(300)).map(|_| other_algorithm(random));
        entries.extend(more.collect::<Vec<_>>());
    }
    Tree::Array(entries)
}

fn algorithm(random: &mut Random, alg: Tree, kind: Tree) -> Tree {
    let mut entries = vec![(Tree::text("alg"), alg), (Tree::text("type"), kind)];
    if random.once_in(6) {
        entries.push((item::key(random), item::canonical(random, 1)));
    }
    Tree::Map(item::in_order(entries))
}

/// An entry that is well formed and not the algorithm the key has, though it comes close.
fn other_algorithm(random: &mut Random) -> Tree {
    let (major, argument) = random.pick(&[
        (UNSIGNED, 249),
        (UNSIGNED, 6),
        (UNSIGNED, 7),
        (NEGATIVE, 5),
        (NEGATIVE, 7),
        (NEGATIVE, 248),
        (NEGATIVE, 256),
        (NEGATIVE, 262),
        (NEGATIVE, 0x1_0006),
        (NEGATIVE, 0x1_0000_0006),
        (UNSIGNED, 0xFFFF_FFF9),
        (UNSIGNED, u64::MAX - 6),
        (NEGATIVE, 6),
    ]);
    let kind = if (major, argument) == (NEGATIVE, 6) {
        random.pick(&["", "public-kez", "public-ke", "public-key ", "Public-key"])
    } else {
        "public-key"
    };
    algorithm(random, Tree::Number(major, argument), Tree::text(kind))
}

/// Brings a command to `size` bytes where that is possible: an unknown key takes a string of what is
/// missing.
fn pad(random: &mut Random, command: &mut Command, size: usize) {
    // before all other keys, behind the known keys, or behind most
    let key = match random.below(3) {
        0 => Tree::unsigned(0),
        1 => Tree::unsigned(10),
        _ => Tree::text("padding"),
    };
    let bare = 1 + Tree::Map(command.entries.clone()).encoded().len() + key.encoded().len();
    if let Some(room @ 1..) = size.checked_sub(bare) {
        let major = random.pick(&[BYTES, TEXT]);
        command.add(key, item::string_in(random, major, room));
    }
}
