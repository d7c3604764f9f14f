//! Random replies: a status byte and a canonical map or nothing, and ones that are damaged.

use crate::packet::LONGEST;
use crate::trial::item;
use crate::trial::random::Random;
use crate::trial::tree::{Entries, Tree, Written, BYTES, TEXT};

/// Levels that are left below the outer map.
const LEVELS: usize = 3;

/// A good reply as it is written; one without a map has no items.
pub fn good(random: &mut Random) -> Written {
    loop {
        let written = sound(random);
        if written.bytes.len() <= LONGEST {
            return written;
        }
    }
}

/// What a good reply gets that is taken apart, known from how it was written.
pub fn apart(reply: &Written) -> String {
    let status = format!("status {:02x}", reply.bytes[0]);
    match reply.bytes.len() - 1 {
        0 => status,
        map => format!("{status} map 1 {map}"),
    }
}

/// What a good reply gets that is gone through, known from how it was written.
pub fn walk(reply: &Written) -> String {
    // The items directly inside the map are its keys and their values in turn.
    let inside: Vec<String> = reply
        .spots
        .iter()
        .filter(|spot| spot.path.len() == 1)
        .map(|spot| format!("{} {}", spot.place, spot.end - spot.place))
        .collect();
    let entries = inside.chunks(2).map(|entry| entry.join(" "));
    let mut lines: Vec<String> = entries.map(|entry| format!("entry {entry}")).collect();
    lines.push("end".to_string());
    lines.join("\n")
}

/// A good reply, or one that is no reply or too long.
pub fn any(random: &mut Random) -> Vec<u8> {
    match random.below(12) {
        0 => Vec::new(),
        1 => damaged(random),
        2 => behind_a_status(random, |random| {
            let depth = LEVELS + 1 + random.below(3);
            item::nested(random, depth)
        }),
        3 => behind_a_status(random, |random| item::canonical(random, 1)),
        4 => {
            let mut reply = sound(random).bytes;
            let more = 1 + random.below(3);
            reply.extend_from_slice(&random.bytes(more));
            reply
        }
        5 => {
            let mut reply = sound(random).bytes;
            item::damage_bytes(random, &mut reply);
            reply
        }
        6 if random.once_in(4) => of_size(random, LONGEST + 1).bytes,
        _ => sound(random).bytes,
    }
}

/// A reply that has no fault but its size.
fn sound(random: &mut Random) -> Written {
    match random.below(8) {
        0 => Written {
            bytes: vec![status(random)],
            spots: Vec::new(),
        },
        1 => {
            let any = 9 + random.below(LONGEST - 9);
            let size = random.pick(&[9, 57, 58, 116, 117, any, LONGEST - 1, LONGEST]);
            of_size(random, size)
        }
        _ => {
            let status = status(random);
            Tree::Map(entries(random)).written_behind(&[status])
        }
    }
}

/// The status byte of a reply.
fn status(random: &mut Random) -> u8 {
    let any = random.number() as u8;
    random.pick(&[0x00, 0x00, 0x26, 0x2D, any])
}

/// A few entries, now and then enough for a head of two bytes.
fn entries(random: &mut Random) -> Entries {
    let count = match random.below(10) {
        0 => random.pick(&[23, 24, 25, 60]),
        _ => random.below(6),
    };
    let mut entries: Entries = (0..count)
        .map(|_| (item::key(random), item::canonical(random, LEVELS)))
        .collect();
    if random.once_in(3) {
        entries.push((item::key(random), item::nested(random, LEVELS)));
    }
    item::in_order(entries)
}

/// A reply of this many bytes, at least nine, or about as many.
fn of_size(random: &mut Random, size: usize) -> Written {
    // The status, the map's head, two keys and the short value take five bytes.
    let major = random.pick(&[BYTES, TEXT]);
    let long = item::string_in(random, major, size - 5);
    let values = match random.below(2) {
        0 => [long, Tree::unsigned(0)],
        _ => [Tree::unsigned(0), long],
    };
    let entries = (1..).map(Tree::unsigned).zip(values).collect();
    let status = status(random);
    Tree::Map(entries).written_behind(&[status])
}

fn behind_a_status(random: &mut Random, item: impl Fn(&mut Random) -> Tree) -> Vec<u8> {
    let status = status(random);
    [vec![status], item(random).encoded()].concat()
}

fn damaged(random: &mut Random) -> Vec<u8> {
    behind_a_status(random, |random| {
        let mut map = Tree::Map(entries(random));
        item::damage(random, &mut map);
        map
    })
}
