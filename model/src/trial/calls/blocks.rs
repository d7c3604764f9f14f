//! Blocks that a firmware should never have, and some that it could.

use crate::block::{encode, BLOCK};
use crate::trial::random::Random;
use crate::trial::states;

/// Where the numbers of 32 bits stand.
const NUMBERS: [usize; 6] = [4, 8, 12, 16, 20, 24];

/// Another block: that of a state in order or out of order, this block or such a state's with
/// something changed, or bytes with little order.
pub fn other(random: &mut Random, block: [u8; BLOCK]) -> [u8; BLOCK] {
    let in_order = encode(&states::in_order(random));
    let mut other = random.pick(&[block, in_order]);
    match random.below(14) {
        0 => return in_order,
        1 | 2 => return encode(&states::out_of_order(random)),
        3 => no_order(random, &mut other),
        4 => another_mark(random, &mut other),
        5 | 6 => other[2] = random.pick(&[0, 1, 2, 3, 4, 5, 0x80, 0xFF]),
        7 => too_wide(random, &mut other),
        8 => turned(random, &mut other),
        9 | 10 => of_no_use(random, &mut other),
        _ => byte_changed(random, &mut other),
    }
    other
}

/// All bytes random, those behind the mark and a phase, or all the same.
fn no_order(random: &mut Random, block: &mut [u8; BLOCK]) {
    match random.below(3) {
        0 => random.fill(block),
        1 => {
            random.fill(&mut block[3..]);
            block[2] = random.below(5) as u8;
        }
        _ => block.fill(random.pick(&[0, 0xFF])),
    }
}

/// The mark the other way round, or with one bit changed.
fn another_mark(random: &mut Random, block: &mut [u8; BLOCK]) {
    if random.once_in(4) {
        block.swap(0, 1);
    } else {
        block[random.below(2)] ^= 1 << random.below(8);
    }
}

/// A number that has the same low bytes, to one who reads only 8 or 16 bits of it.
fn too_wide(random: &mut Random, block: &mut [u8; BLOCK]) {
    let at = random.pick(&NUMBERS) + random.below(3);
    block[at] = block[at].wrapping_add(random.pick(&[1, 1, 0x80]));
}

/// A number with its bytes the other way round.
fn turned(random: &mut Random, block: &mut [u8; BLOCK]) {
    let at = random.pick(&NUMBERS);
    block[at..][..4].reverse();
}

/// Something in a byte that the phase has no use for.
fn of_no_use(random: &mut Random, block: &mut [u8; BLOCK]) {
    let first = match block[2] {
        0 => 12,
        2 => 20,
        3 => 24,
        _ => 28,
    };
    let any = first + random.below(BLOCK - first);
    // An idle key has no command either.
    let at = if first == 12 && random.once_in(4) {
        3
    } else {
        any
    };
    block[at] = 1 + random.below(255) as u8;
}

fn byte_changed(random: &mut Random, block: &mut [u8; BLOCK]) {
    // The bytes before the numbers have as many rules as all that follow.
    let (early, anywhere) = (random.below(4), random.below(BLOCK));
    let at = random.pick(&[early, anywhere]);
    let any = random.number() as u8;
    let bit = block[at] ^ 1 << random.below(8);
    let (more, less) = (block[at].wrapping_add(1), block[at].wrapping_sub(1));
    block[at] = random.pick(&[any, bit, more, less, 0]);
}
