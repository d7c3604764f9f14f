//! The key's state as the block of 32 bytes that a firmware in C keeps (request 2026-05; the layout
//! stands in `include/bellaqsum.h`).

use crate::key::{Key, Message, Ticket, Transaction};
use crate::packet::Channel;

/// Bytes in a block.
pub const BLOCK: usize = 32;

/// The first two bytes of every block.
const MARK: [u8; 2] = [0x42, 0x51];

/// The phases' numbers.
const IDLE: u8 = 0;
const GATHERING: u8 = 1;
const WAITING: u8 = 2;
const ANSWERING: u8 = 3;

/// The block of a state, in order or not. What its phase has no use for is 0.
pub fn encode(key: &Key) -> [u8; BLOCK] {
    let (phase, done, left) = match key.transaction {
        Transaction::Idle => (IDLE, 0, 0),
        Transaction::Gathering { done, left, .. } => (GATHERING, done, left),
        Transaction::Waiting { .. } => (WAITING, 0, 0),
        Transaction::Answering { done, .. } => (ANSWERING, done, 0),
    };
    let (command, holder, length) = match key.transaction.message() {
        None => (0, 0, 0),
        Some(message) => (message.command, message.holder.0, message.length),
    };
    let numbers = [
        key.channels,
        key.ticket.0,
        holder,
        u32::from(length),
        u32::from(done),
        left,
    ];
    let mut block = [0; BLOCK];
    block[..2].copy_from_slice(&MARK);
    block[2] = phase;
    block[3] = command;
    for (field, number) in block[4..].chunks_exact_mut(4).zip(numbers) {
        field.copy_from_slice(&number.to_be_bytes());
    }
    block
}

/// The state whose block these bytes are; `None` where they are no state's.
///
/// The block has 32 bits for a length and a count of packets, the model's state 16. A block whose
/// numbers do not fit is that of a state out of order, since no message has 65,536 bytes. It has no
/// state here, and is turned away with 7 either way.
pub fn decode(bytes: &[u8]) -> Option<Key> {
    let block: &[u8; BLOCK] = bytes.try_into().ok()?;
    let number = |at| u32::from_be_bytes([block[at], block[at + 1], block[at + 2], block[at + 3]]);
    let [channels, ticket, holder, length, done, left, spare] =
        [4, 8, 12, 16, 20, 24, 28].map(number);
    if block[..2] != MARK || spare != 0 {
        return None;
    }
    let (phase, command) = (block[2], block[3]);
    let message = Message {
        holder: Channel(holder),
        command,
        length: length.try_into().ok()?,
    };
    let packets = done.try_into().ok()?;
    let transaction = match (phase, command, holder, length, done, left) {
        (IDLE, 0, 0, 0, 0, 0) => Transaction::Idle,
        (GATHERING, ..) => Transaction::Gathering {
            message,
            done: packets,
            left,
        },
        (WAITING, _, _, _, 0, 0) => Transaction::Waiting { message },
        (ANSWERING, _, _, _, _, 0) => Transaction::Answering {
            message,
            done: packets,
        },
        _ => return None,
    };
    Some(Key {
        channels,
        ticket: Ticket(ticket),
        transaction,
    })
}

#[cfg(test)]
mod tests {
    use super::*;
    use crate::trial::random::Random;
    use crate::trial::states;

    const MESSAGE: Message = Message {
        holder: Channel(0x0A0B_0C0D),
        command: 0x10,
        length: 0x1234,
    };

    fn key(transaction: Transaction) -> Key {
        Key {
            channels: 0x0102_0304,
            ticket: Ticket(0x0506_0708),
            transaction,
        }
    }

    /// A state for each phase, with no two numbers alike and no byte of them 0 that need not be.
    fn of_each_phase() -> [Key; 4] {
        [
            key(Transaction::Idle),
            key(Transaction::Gathering {
                message: MESSAGE,
                done: 0x2122,
                left: 0x3132_3334,
            }),
            key(Transaction::Waiting { message: MESSAGE }),
            key(Transaction::Answering {
                message: MESSAGE,
                done: 0x2122,
            }),
        ]
    }

    fn states(random: &mut Random) -> [Key; 2] {
        [states::in_order(random), states::out_of_order(random)]
    }

    #[test]
    fn the_layout_phase_by_phase() {
        let zeros = [0; BLOCK];
        let blocks = [
            &b"\x42\x51\x00\x00\x01\x02\x03\x04\x05\x06\x07\x08"[..],
            b"\x42\x51\x01\x10\x01\x02\x03\x04\x05\x06\x07\x08\x0A\x0B\x0C\x0D\
              \x00\x00\x12\x34\x00\x00\x21\x22\x31\x32\x33\x34",
            b"\x42\x51\x02\x10\x01\x02\x03\x04\x05\x06\x07\x08\x0A\x0B\x0C\x0D\
              \x00\x00\x12\x34",
            b"\x42\x51\x03\x10\x01\x02\x03\x04\x05\x06\x07\x08\x0A\x0B\x0C\x0D\
              \x00\x00\x12\x34\x00\x00\x21\x22",
        ];
        for (state, block) in of_each_phase().into_iter().zip(blocks) {
            let block = [block, &zeros[block.len()..]].concat();
            assert_eq!(encode(&state)[..], block, "{state:?}");
            assert_eq!(decode(&block), Some(state));
        }
    }

    #[test]
    fn a_fresh_key_is_the_mark_and_zeros() {
        let block = encode(&Key::default());
        assert_eq!(block[..2], [0x42, 0x51]);
        assert_eq!(block[2..], [0; 30]);
    }

    #[test]
    fn both_ways_round() {
        let mut random = Random::new(1);
        for _ in 0..100_000 {
            for state in states(&mut random) {
                assert_eq!(decode(&encode(&state)), Some(state));
            }
        }
    }

    #[test]
    fn any_block_is_its_states_only_one() {
        let mut random = Random::new(2);
        let mut found = 0;
        for _ in 0..100_000 {
            // Every byte is 0 or not, so that every set of fields in use comes up.
            let mut bytes = [0; BLOCK];
            bytes[..4].copy_from_slice(&[0x42, 0x51, random.below(5) as u8, 0]);
            for byte in &mut bytes[3..] {
                if random.once_in(8) {
                    *byte = random.number() as u8;
                }
            }
            if let Some(state) = decode(&bytes) {
                assert_eq!(encode(&state), bytes);
                found += 1;
            }
        }
        assert!(found > 1_000, "only {found} states");
    }

    /// The bytes that a phase has in use, as the model's 16 bits for a length and a count have it.
    fn in_use(phase: usize, place: usize) -> bool {
        match place {
            4..=11 => true,
            3 | 12..=15 | 18 | 19 => phase != 0,
            22 | 23 => phase == 1 || phase == 3,
            24..=27 => phase == 1,
            _ => false,
        }
    }

    #[test]
    fn one_byte_changed_names_another_state_or_none() {
        for (phase, state) in of_each_phase().into_iter().enumerate() {
            let block = encode(&state);
            for place in (0..BLOCK).filter(|&place| place != 2) {
                for change in 1..=255 {
                    let mut bytes = block;
                    bytes[place] ^= change;
                    let named = decode(&bytes);
                    assert_eq!(named.is_some(), in_use(phase, place), "{bytes:02x?}");
                    assert_ne!(named, Some(state));
                    assert!(named.is_none_or(|other| encode(&other) == bytes));
                }
            }
        }
    }

    #[test]
    fn another_phase_has_to_do_without_what_it_does_not_use() {
        // Which phases a block can be given, by the phase it has: those that use no fewer fields.
        let fitting = [&[0, 1, 2, 3][..], &[1], &[1, 2, 3], &[1, 3]];
        for (state, fitting) in of_each_phase().into_iter().zip(fitting) {
            for phase in 0..=255 {
                let mut bytes = encode(&state);
                bytes[2] = phase;
                let named = decode(&bytes);
                assert_eq!(named.is_some(), fitting.contains(&phase), "{bytes:02x?}");
            }
        }
    }

    #[test]
    fn no_block_of_another_length() {
        let block = encode(&of_each_phase()[1]);
        let longer = [block, [0; BLOCK]].concat();
        for length in 0..=longer.len() {
            let is_block = decode(&longer[..length]).is_some();
            assert_eq!(is_block, length == BLOCK, "{length} bytes");
        }
    }

    #[test]
    fn what_does_not_fit_16_bits_is_no_state_here() {
        for place in [16, 17, 20, 21] {
            let mut bytes = encode(&of_each_phase()[1]);
            bytes[place] = 1;
            assert_eq!(decode(&bytes), None, "{bytes:02x?}");
        }
    }
}
