//! Random parts of a command: good ones, ones that the key would refuse, and ones that are not
//! exactly one canonical item.

use crate::packet::LONGEST;
use crate::trial::commands::{self, Command, MAKE_CREDENTIAL};
use crate::trial::item;
use crate::trial::random::Random;
use crate::trial::tree::{Tree, BYTES, TEXT, UNSIGNED};

/// Levels that are left below the outer map.
const LEVELS: usize = 3;

/// Sizes around which packets are added, the largest, and ones that are too large.
const SIZES: [usize; 10] = [
    57,
    58,
    116,
    1_000,
    LONGEST - 1,
    LONGEST,
    LONGEST + 1,
    8_192,
    8_193,
    12_000,
];

/// The parts of a command, and the order in which a line names them.
#[derive(Clone, Debug)]
pub struct Parts {
    /// The command byte.
    pub byte: u8,
    /// Keys with their encoded parts.
    pub named: Vec<(u8, Vec<u8>)>,
}

impl Parts {
    /// The parts of a command's known keys.
    pub fn of(command: &Command) -> Parts {
        let mut parts = Parts {
            byte: command.byte,
            named: Vec::new(),
        };
        for (key, value) in &command.entries {
            match *key {
                Tree::Number(UNSIGNED, key) if (1..=parts.known()).contains(&key) => {
                    parts.named.push((key as u8, value.encoded()));
                }
                _ => {}
            }
        }
        parts
    }

    /// The known keys of the command are 1 to this.
    fn known(&self) -> u64 {
        match self.byte {
            MAKE_CREDENTIAL => 9,
            _ => 7,
        }
    }

    /// The word of the line that writes the command.
    pub fn word(&self) -> &'static str {
        match self.byte {
            MAKE_CREDENTIAL => "make",
            _ => "get",
        }
    }

    /// The command that these parts make, as long as it may be.
    pub fn command(&self) -> Vec<u8> {
        let mut in_order = self.named.clone();
        in_order.sort();
        let mut written = vec![self.byte, 0xA0 + in_order.len() as u8];
        for (key, part) in in_order {
            written.push(key);
            written.extend_from_slice(&part);
        }
        written
    }

    /// Gives a key this part, in the place of any other.
    fn set(&mut self, key: u8, part: &Tree) {
        self.named.retain(|named| named.0 != key);
        self.named.push((key, part.encoded()));
    }

    /// Names the parts in any order.
    fn shuffle(&mut self, random: &mut Random) {
        for at in 1..self.named.len() {
            self.named.swap(at, random.below(at + 1));
        }
    }
}

/// Parts that make a good command of any size up to the largest.
pub fn good(random: &mut Random) -> Parts {
    loop {
        let mut parts = Parts::of(&commands::sound(random));
        parts.shuffle(random);
        if random.once_in(4) {
            let any = random.below(LONGEST);
            let size = random.pick(&[any, LONGEST - 1, LONGEST]);
            pad(random, &mut parts, size);
        }
        if parts.command().len() <= LONGEST {
            return parts;
        }
    }
}

/// Parts that are an item each, of a command that the key can take or refuse, of any size.
pub fn well_formed(random: &mut Random) -> Parts {
    let mut command = commands::sound(random);
    if random.once_in(3) {
        commands::parameter_faults(random, &mut command);
    }
    let mut parts = Parts::of(&command);
    if random.once_in(6) {
        let key = 1 + random.below(parts.known() as usize) as u8;
        let depth = random.below(LEVELS + 1);
        parts.set(key, &item::nested(random, depth));
    }
    if random.once_in(20) {
        parts.named.truncate(random.below(3));
    }
    if random.once_in(8) {
        let size = random.pick(&SIZES);
        pad(random, &mut parts, size);
    }
    parts.shuffle(random);
    parts
}

/// Any parts, in about half of the cases good ones.
pub fn any(random: &mut Random) -> Parts {
    let mut parts = well_formed(random);
    if random.once_in(4) {
        damage(random, &mut parts);
    }
    parts
}

/// Makes a part into what is not exactly one canonical item with three levels.
fn damage(random: &mut Random, parts: &mut Parts) {
    if parts.named.is_empty() {
        return;
    }
    let at = random.below(parts.named.len());
    let part = &mut parts.named[at].1;
    match random.below(8) {
        0 => part.clear(),
        1 => {
            let more = 1 + random.below(3);
            part.extend_from_slice(&random.bytes(more));
        }
        2 => part.extend_from_slice(&item::canonical(random, 1).encoded()),
        3 => *part = item::nested(random, LEVELS + 1).encoded(),
        4 => item::damage_bytes(random, part),
        5 => *part = item::breach(random).encoded(),
        // A string of one byte begins, which would take the next part's key for its content.
        6 => part.push(random.pick(&[0x41, 0x61])),
        _ => {
            let mut tree = item::nested(random, LEVELS);
            item::damage(random, &mut tree);
            *part = tree.encoded();
        }
    }
}

/// Brings a command to `size` bytes where that is possible: one of its keys gets a part of its kind
/// that takes what is missing.
fn pad(random: &mut Random, parts: &mut Parts, size: usize) {
    let kinds: [(u8, Fill); 4] = match parts.byte {
        MAKE_CREDENTIAL => [(2, in_map), (5, in_array), (7, in_map), (8, in_bytes)],
        _ => [(1, in_text), (3, in_array), (4, in_map), (6, in_bytes)],
    };
    let (key, fill) = random.pick(&kinds);
    let mut bare = parts.clone();
    bare.named.retain(|part| part.0 != key);
    // The least that every kind can fill is three bytes, behind the key's one.
    if let Some(room @ 3..) = size.checked_sub(bare.command().len() + 1) {
        parts.set(key, &fill(random, room));
    }
}

/// An item that takes this many bytes.
type Fill = fn(&mut Random, usize) -> Tree;

fn in_bytes(random: &mut Random, room: usize) -> Tree {
    item::string_in(random, BYTES, room)
}

fn in_text(random: &mut Random, room: usize) -> Tree {
    item::string_in(random, TEXT, room)
}

fn in_array(random: &mut Random, room: usize) -> Tree {
    Tree::Array(vec![in_text(random, room - 1)])
}

fn in_map(random: &mut Random, room: usize) -> Tree {
    Tree::Map(vec![(Tree::unsigned(0), in_bytes(random, room - 2))])
}
