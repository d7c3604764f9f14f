//! Good commands of [`LONGEST`] bytes, of several shapes.

use std::ops::RangeInclusive;

use model::packet::LONGEST;
use model::trial::random::Random;
use model::trial::tree::{Entries, Tree, NEGATIVE};

const MAKE_CREDENTIAL: u8 = 0x01;
const GET_ASSERTION: u8 = 0x02;
const TRUE: u8 = 0xF5;

/// A key that GetAssertion does not know.
const UNKNOWN: u64 = 10;

/// Bytes in a credential's id.
const ID: usize = 64;

/// A command, and what is special about it.
pub struct Command {
    pub shape: &'static str,
    pub bytes: Vec<u8>,
}

/// A MakeCredential as a browser sends it, with a long list of credentials to exclude.
pub fn make_credential() -> Command {
    Command {
        shape: "MakeCredential, excludeList",
        bytes: filled(|count, rest| {
            let entries = vec![
                (Tree::unsigned(1), Tree::bytes(hash())),
                (Tree::unsigned(2), relying_party()),
                (Tree::unsigned(3), user()),
                (Tree::unsigned(4), algorithms()),
                (Tree::unsigned(5), descriptors(count, rest)),
                (
                    Tree::unsigned(7),
                    named([("rk", Tree::Raw(vec![TRUE]))].into()),
                ),
            ];
            written(MAKE_CREDENTIAL, entries)
        }),
    }
}

/// A GetAssertion with a long list of credentials, and others that have one long value.
pub fn get_assertions() -> Vec<Command> {
    let allow_list = Command {
        shape: "GetAssertion, allowList",
        bytes: filled(|count, rest| get_assertion("", 3, descriptors(count, rest))),
    };
    let random_bytes = |count| Tree::bytes(Random::new(2).bytes(count));
    vec![
        allow_list,
        with_unknown("array of small integers", small_integers),
        with_unknown("long byte string", random_bytes),
        with_unknown("long ASCII text", |count| letters('a'..='z', count)),
        with_unknown("long Greek text", |count| letters('α'..='ω', count)),
        with_unknown("map of integer keys", integer_keys),
        with_unknown("map of short text keys", text_keys),
    ]
}

/// A GetAssertion whose unknown key has this value, of so many bytes, letters or entries.
fn with_unknown(shape: &'static str, value: impl Fn(usize) -> Tree) -> Command {
    Command {
        shape,
        bytes: filled(|count, rest| get_assertion(&"a".repeat(rest), UNKNOWN, value(count))),
    }
}

/// The client data hash of all commands here.
pub fn hash() -> Vec<u8> {
    (0x80..0xA0).collect()
}

/// The longest command that is no longer than a message: `make` is given a count, and then, with
/// the greatest count, how many more bytes it has to fill up somewhere else.
fn filled(make: impl Fn(usize, usize) -> Vec<u8>) -> Vec<u8> {
    let count = greatest(|count| make(count, 0).len() <= LONGEST);
    let rest = greatest(|rest| make(count, rest).len() <= LONGEST);
    make(count, rest)
}

/// The greatest number with which it fits; it fits with 0, and does not beyond one that does not.
fn greatest(fits: impl Fn(usize) -> bool) -> usize {
    let numbers: Vec<usize> = (1..=LONGEST).collect();
    numbers.partition_point(|&number| fits(number))
}

fn written(command: u8, entries: Entries) -> Vec<u8> {
    [vec![command], Tree::Map(entries).encoded()].concat()
}

/// A GetAssertion with one more key than the required two, behind them.
fn get_assertion(subdomain: &str, key: u64, value: Tree) -> Vec<u8> {
    let entries = vec![
        (
            Tree::unsigned(1),
            Tree::text(&format!("{subdomain}example.org")),
        ),
        (Tree::unsigned(2), Tree::bytes(hash())),
        (Tree::unsigned(key), value),
    ];
    written(GET_ASSERTION, entries)
}

/// A map with these keys, which are in canonical order: the shorter first.
fn named(entries: Vec<(&str, Tree)>) -> Tree {
    let entry = |(key, value)| (Tree::text(key), value);
    Tree::Map(entries.into_iter().map(entry).collect())
}

fn relying_party() -> Tree {
    named(vec![
        ("id", Tree::text("example.org")),
        ("name", Tree::text("Example")),
    ])
}

fn user() -> Tree {
    named(vec![
        ("id", Tree::bytes(Random::new(3).bytes(32))),
        ("name", Tree::text("planner@example.org")),
        ("displayName", Tree::text("The planner")),
    ])
}

/// -7 and -257, which is what browsers ask for.
fn algorithms() -> Tree {
    let entry = |argument| {
        named(vec![
            ("alg", Tree::Number(NEGATIVE, argument)),
            ("type", Tree::text("public-key")),
        ])
    };
    Tree::Array(vec![entry(6), entry(256)])
}

/// So many credentials; the last id is longer than the others by `rest`.
fn descriptors(count: usize, rest: usize) -> Tree {
    let mut random = Random::new(1);
    let descriptor = |index| {
        let more = if index + 1 == count { rest } else { 0 };
        named(vec![
            ("id", Tree::bytes(random.bytes(ID + more))),
            ("type", Tree::text("public-key")),
        ])
    };
    Tree::Array((0..count).map(descriptor).collect())
}

fn small(number: usize) -> Tree {
    Tree::unsigned(number as u64 % 24)
}

fn small_integers(count: usize) -> Tree {
    Tree::Array((0..count).map(small).collect())
}

/// A text of these letters, over and over.
fn letters(alphabet: RangeInclusive<char>, count: usize) -> Tree {
    let text: String = alphabet.cycle().take(count).collect();
    Tree::text(&text)
}

fn integer_keys(count: usize) -> Tree {
    let entry = |number| (Tree::unsigned(number as u64), small(number));
    Tree::Map((0..count).map(entry).collect())
}

/// Keys of three letters: "aaa", "aab" and on.
fn text_keys(count: usize) -> Tree {
    let letter = |number: usize| char::from(b'a' + (number % 26) as u8);
    let key = |number| [number / 676, number / 26, number].map(letter);
    let entry = |number| (Tree::text(&String::from_iter(key(number))), small(number));
    Tree::Map((0..count).map(entry).collect())
}

#[cfg(test)]
mod tests {
    use super::*;
    use model::command::check;

    #[test]
    fn every_command_is_good_and_as_long_as_a_message() {
        for command in [make_credential()].into_iter().chain(get_assertions()) {
            assert_eq!(command.bytes.len(), LONGEST, "{}", command.shape);
            let good = check(&command.bytes).expect(command.shape);
            assert_eq!(good.hash, hash());
        }
    }

    #[test]
    fn the_long_value_is_what_the_shape_says() {
        let commands = get_assertions();
        // Behind the unknown key: the value's first byte, its count in two bytes, and what it holds.
        for (command, first, least, holds) in [
            (&commands[1], 0x99, 7_500, &[0, 1, 2][..]),
            (&commands[2], 0x59, 7_500, &[]),
            (&commands[3], 0x79, 7_500, b"abc"),
            (&commands[4], 0x79, 7_500, "αβγ".as_bytes()),
            (&commands[5], 0xB9, 1_800, &[0, 0, 1, 1, 2]),
            (&commands[6], 0xB9, 1_500, b"\x63aaa\x00\x63aab"),
        ] {
            let key = [&hash()[..], &[UNKNOWN as u8]].concat();
            let place = command
                .bytes
                .windows(key.len())
                .position(|part| part == key);
            let value = &command.bytes[place.expect(command.shape) + key.len()..];
            assert_eq!(value[0], first, "{}", command.shape);
            let count = u16::from_be_bytes([value[1], value[2]]);
            assert!(count >= least, "{count} in {}", command.shape);
            assert!(value[3..].starts_with(holds), "{}", command.shape);
        }
    }

    #[test]
    fn the_greatest_number_that_fits() {
        assert_eq!(greatest(|_| false), 0);
        assert_eq!(greatest(|number| number <= 5), 5);
        assert_eq!(greatest(|_| true), LONGEST);
    }
}
