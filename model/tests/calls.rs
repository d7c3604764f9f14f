//! The comparison of calls catches firmwares that are wrong, and shortens what it reports. Each is
//! the model with one call changed; no archive is needed.

use std::sync::atomic::{AtomicU64, Ordering};

use model::block::{encode, BLOCK};
use model::firmware::{Calls, MODEL};
use model::key::Key;
use model::packet::PACKET;
use model::trial::calls::difference::Difference;
use model::trial::calls::run::{compare, Done};
use model::trial::calls::Call;
use model::trial::run::Enough;

const EVENTS: u64 = 100_000;

fn compared(calls: &Calls) -> Result<Done, Box<Difference>> {
    compare(calls, 1, Enough::Events(EVENTS), |_| {})
}

fn caught(calls: Calls) -> Difference {
    *compared(&calls).expect_err("no event catches it")
}

#[test]
fn the_model_agrees_with_itself() {
    if let Err(difference) = compared(&MODEL) {
        panic!("{difference}");
    }
}

#[test]
fn seven_behind_another_number() {
    let difference = caught(Calls {
        packet: |block, packet, reply, message| match packet.len() {
            PACKET => (MODEL.packet)(block, packet, reply, message),
            _ => 1,
        },
        ..MODEL
    });
    assert_eq!((difference.model.0, difference.other.0), (7, 1));
    assert!(difference.alone);
}

#[test]
fn a_byte_written_behind_the_block() {
    let difference = caught(Calls {
        fetch: |block, reply, message| {
            let word = (MODEL.fetch)(block, reply, message);
            if let Some(behind) = block.get_mut(BLOCK) {
                *behind = !*behind;
            }
            word
        },
        ..MODEL
    });
    let report = difference.to_string();
    assert!(report.contains("block, byte 32: "), "{report}");
}

#[test]
fn a_state_that_is_not_kept() {
    let difference = caught(Calls {
        time: |block, elapsed, reply| {
            let mut kept = block.to_vec();
            (MODEL.time)(&mut kept, elapsed, reply)
        },
        ..MODEL
    });
    let report = difference.to_string();
    assert!(report.contains("block, byte "), "{report}");
}

#[test]
fn a_message_zeroed_behind_its_end() {
    let difference = caught(Calls {
        deliver: |block, ticket, bytes, message| {
            let word = (MODEL.deliver)(block, ticket, bytes, message);
            if word == 0 {
                message[bytes.len()..].fill(0);
            }
            word
        },
        ..MODEL
    });
    // One byte behind the delivery is enough to show it.
    let left = difference
        .scene
        .lent
        .message
        .iter()
        .filter(|&&byte| byte != 0);
    assert_eq!(left.count(), 1);
}

#[test]
fn a_fresh_key_only_in_place_of_a_state() {
    let difference = caught(Calls {
        fresh: |block| {
            let mut probe = block.to_vec();
            match (MODEL.time)(&mut probe, 0, &mut [0; PACKET]) {
                7 => 7,
                _ => (MODEL.fresh)(block),
            }
        },
        ..MODEL
    });
    assert_eq!(difference.scene.call, Call::Fresh);
    assert_eq!(difference.event.in_all, 1);
}

#[test]
fn a_command_is_shortened() {
    const UNKNOWN: u64 = 0x01;
    let difference = caught(Calls {
        check: |message| match (MODEL.check)(message) {
            UNKNOWN => UNKNOWN | 1 << 32,
            word => word,
        },
        ..MODEL
    });
    assert_eq!(difference.scene.call.bytes().len(), 1);
}

#[test]
fn something_kept_beside_the_block() {
    static PACKETS: AtomicU64 = AtomicU64::new(0);
    let difference = caught(Calls {
        packet: |block, packet, reply, message| {
            if PACKETS.fetch_add(1, Ordering::Relaxed) == 1_000 {
                block.fill(0);
            }
            (MODEL.packet)(block, packet, reply, message)
        },
        ..MODEL
    });
    assert!(!difference.alone);
    let report = difference.to_string();
    assert!(report.contains("beside the block"), "{report}");
}

#[test]
fn a_fresh_block_is_where_every_script_begins() {
    let difference = caught(Calls {
        fresh: |_| 0,
        ..MODEL
    });
    let parts = difference.scene.parts;
    let block = &parts.block.of(&difference.model.1.block)[..BLOCK];
    assert_eq!(block, encode(&Key::default()));
}
