//! Copies of a message, to compare with: what moves its bytes and does nothing else.

use std::hint::black_box;

use model::packet::{FIRST_PAYLOAD, LATER_PAYLOAD, LONGEST};

/// The bytes of a message, beginning with a cache line as the jobs' buffers do.
#[repr(align(64))]
pub struct Message(pub [u8; LONGEST]);

/// A copy of all bytes; the two slices are equally long.
pub struct Copy {
    pub name: &'static str,
    pub copy: fn(&[u8], &mut [u8]),
}

pub const IN_ONE_PIECE: &str = "copy of 7,609 bytes in one piece";

pub const COPIES: [Copy; 2] = [
    Copy {
        name: IN_ONE_PIECE,
        copy: in_one_piece,
    },
    Copy {
        name: "copy of 7,609 bytes in the packets' 129 pieces",
        copy: in_pieces,
    },
];

fn in_one_piece(from: &[u8], to: &mut [u8]) {
    to.copy_from_slice(from);
}

/// A piece's length is not known beforehand, as that of a payload is not: each is a memcpy.
fn in_pieces(from: &[u8], to: &mut [u8]) {
    let mut at = 0;
    let mut length = FIRST_PAYLOAD;
    while at < from.len() {
        let piece = at..at + black_box(length);
        to[piece.clone()].copy_from_slice(&from[piece.clone()]);
        at = piece.end;
        length = LATER_PAYLOAD;
    }
}

#[cfg(test)]
mod tests {
    use super::*;
    use model::trial::random::Random;

    #[test]
    fn every_byte_is_copied() {
        let bytes = Random::new(1).bytes(LONGEST);
        for Copy { name, copy } in COPIES {
            let mut copied = vec![0; LONGEST];
            copy(&bytes, &mut copied);
            assert_eq!(copied, bytes, "{name}");
        }
    }
}
