//! Breaches of the canonical form, put where they are known to be: into sound bytes of which the
//! writer knows the place of every item.

use super::commands::{self, Command};
use super::item;
use super::random::Random;
use super::tree::{head, Spot, Tree, Written, BYTES, TEXT};

/// Maps and arrays nest at most four deep.
const LEVELS: usize = 4;

/// A line of the bench whose bytes have the canonical form.
#[derive(Clone, Debug)]
pub struct Sound {
    /// `check`, or `item` and the levels that are left.
    pub words: String,
    pub levels: usize,
    pub written: Written,
}

impl Sound {
    pub fn check(command: Command) -> Sound {
        Sound {
            words: "check".to_string(),
            levels: LEVELS,
            written: Tree::Map(command.entries).written_behind(&[command.byte]),
        }
    }

    pub fn item(levels: usize, item: &Tree) -> Sound {
        Sound {
            words: format!("item {levels}"),
            levels,
            written: item.written_behind(&[]),
        }
    }
}

/// A good command, or a canonical item: long or short, deep or flat.
pub fn sound(random: &mut Random) -> Sound {
    let command = commands::good(random);
    match random.below(4) {
        0 => Sound::item(LEVELS, &Tree::Map(command.entries)),
        1 => {
            let levels = random.below(LEVELS + 1);
            Sound::item(levels, &item::nested(random, levels))
        }
        _ => Sound::check(command),
    }
}

/// Bytes with a breach in them, and its place.
pub type Planted = Option<(Vec<u8>, usize)>;

/// Puts a breach of one class at an item, in bytes that are the sound ones up to that item's end;
/// what follows can have breaches already. Not every item can have every breach.
pub type Plant = fn(&mut Random, &Sound, &[u8], &Spot) -> Planted;

const CLASSES: [Plant; 7] = [
    bad_head,
    bad_text,
    cut_short,
    cut_off,
    key_of_another_kind,
    level_too_many,
    order,
];

/// A breach of any class.
pub fn any(random: &mut Random, sound: &Sound, bytes: &[u8], spot: &Spot) -> Planted {
    let plant = random.pick(&CLASSES);
    plant(random, sound, bytes, spot)
}

fn replaced(bytes: &[u8], spot: &Spot, with: &[u8]) -> Vec<u8> {
    [&bytes[..spot.place], with, &bytes[spot.end..]].concat()
}

pub fn bad_head(random: &mut Random, _: &Sound, bytes: &[u8], spot: &Spot) -> Planted {
    let bad = item::bad_head(random).encoded();
    Some((replaced(bytes, spot, &bad), spot.place))
}

pub fn bad_text(random: &mut Random, _: &Sound, bytes: &[u8], spot: &Spot) -> Planted {
    let bad = item::bad_text(random).encoded();
    Some((replaced(bytes, spot, &bad), spot.place))
}

/// A string claims more bytes than follow it: few more, or as many as a length can say.
pub fn cut_short(random: &mut Random, _: &Sound, bytes: &[u8], spot: &Spot) -> Planted {
    let rest = (bytes.len() - spot.end) as u64;
    let most = u64::MAX - rest;
    let more = random.pick(&[1, 1, 2, 0xFFFF, 0xFFFF_FFFF, 1 << 32, most]);
    let mut string = Vec::new();
    head(random.pick(&[BYTES, TEXT]), rest + more, &mut string);
    Some((replaced(bytes, spot, &string), spot.place))
}

/// The message ends inside an item's head, or before it, so that the item is missing.
pub fn cut_off(random: &mut Random, _: &Sound, bytes: &[u8], spot: &Spot) -> Planted {
    let mut item = Vec::new();
    let argument = random.pick(&[24, 0x100, 0x1_0000, 0x1_0000_0000]);
    head(random.below(6) as u8, argument, &mut item);
    item.truncate(random.below(item.len()));
    Some(([&bytes[..spot.place], &item].concat(), spot.place))
}

/// A key is an array, a map or a simple value, whatever stands in it.
pub fn key_of_another_kind(random: &mut Random, _: &Sound, bytes: &[u8], spot: &Spot) -> Planted {
    let keys = [
        &b"\x80"[..],
        b"\xA0",
        b"\xF4",
        b"\xF7",
        b"\x81\x00",
        b"\x81\xFF",
        b"\xA1\x18\x00\x00",
    ];
    let key = random.pick(&keys);
    spot.is_key
        .then(|| (replaced(bytes, spot, key), spot.place))
}

/// An array or a map stands inside as many others as there are levels left, whatever stands in it.
pub fn level_too_many(random: &mut Random, sound: &Sound, bytes: &[u8], spot: &Spot) -> Planted {
    let mut item = Vec::new();
    for depth in spot.path.len()..sound.levels {
        let around = [
            &b"\xA1\x00"[..],
            b"\xA2\x00\xF5\x01",
            b"\x81",
            b"\x82\x18\x18",
        ];
        // The outer item of a command has to be a map.
        let is_outer = depth == 0 && sound.words == "check";
        let kinds = if is_outer { 2 } else { 4 };
        item.extend_from_slice(random.pick(&around[..kinds]));
    }
    let place = spot.place + item.len();
    let innermost = [
        &b"\x80"[..],
        b"\xA0",
        b"\x81\x00",
        b"\x81\xFF",
        b"\xB8\x18\xFF",
    ];
    item.extend_from_slice(random.pick(&innermost));
    (!spot.is_key).then(|| (replaced(bytes, spot, &item), place))
}

/// A key is one that stands before it in the same map.
pub fn order(random: &mut Random, sound: &Sound, bytes: &[u8], spot: &Spot) -> Planted {
    let (&number, map) = spot.path.split_last()?;
    if !spot.is_key || number == 0 {
        return None;
    }
    let earlier = [map, &[2 * random.below(number / 2)]].concat();
    let earlier = sound.written.spot(&earlier);
    let key = &bytes[earlier.place..earlier.end];
    Some((replaced(bytes, spot, key), spot.place))
}
