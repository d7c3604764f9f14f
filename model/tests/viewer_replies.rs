//! Replies taken apart and gone through: the program and the model against answers that come from
//! neither. Of each reply it is known where its items stand, and what is wrong with it.

mod viewer_common;

use model::packet::LONGEST;
use model::trial::breaches::{self, Sound};
use model::trial::cases::Cases;
use model::trial::random::Random;
use model::trial::run::seed_or;
use model::trial::tree::{Tree, Written, BYTES};
use model::trial::viewer::replies;
use viewer_common::{hex, hold};

/// Expects of a good reply its parts, as they were written.
fn expect(cases: &mut Cases, reply: &Written) {
    let bytes = hex(&reply.bytes);
    cases.push(format!("apart {bytes}"), replies::apart(reply));
    cases.push(format!("walk {bytes}"), replies::walk(reply));
}

/// Expects that these bytes are no reply.
fn expect_refused(cases: &mut Cases, reply: &[u8], status: u8) {
    for word in ["apart", "walk"] {
        let line = format!("{word} {}", hex(reply)).trim_end().to_string();
        cases.push(line, format!("refused {status:02x}"));
    }
}

#[test]
fn good_replies() {
    let mut random = Random::new(seed_or(0).wrapping_add(60));
    let mut cases = Cases::default();
    for _ in 0..4_000 {
        expect(&mut cases, &replies::good(&mut random));
    }
    hold(cases);
}

#[test]
fn every_status() {
    let mut cases = Cases::default();
    for status in 0..=0xFF {
        let spots = Vec::new();
        let bytes = vec![status];
        expect(&mut cases, &Written { bytes, spots });
        expect(&mut cases, &Tree::Map(vec![]).written_behind(&[status]));
    }
    hold(cases);
}

#[test]
fn a_breach_anywhere() {
    let mut random = Random::new(seed_or(0).wrapping_add(61));
    let mut cases = Cases::default();
    while cases.lines.len() < 12_000 {
        let written = replies::good(&mut random);
        if written.spots.is_empty() {
            continue;
        }
        // The form of a reply is that of a command.
        let sound = Sound {
            words: "check".to_string(),
            levels: 4,
            written,
        };
        let Written { bytes, spots } = &sound.written;
        let spot = &spots[random.below(spots.len())];
        let Some((reply, _)) = breaches::any(&mut random, &sound, bytes, spot) else {
            continue;
        };
        // A reply that is cut behind its status has nothing wrong with it.
        if (2..=LONGEST).contains(&reply.len()) {
            expect_refused(&mut cases, &reply, 0x12);
        }
    }
    hold(cases);
}

#[test]
fn bytes_behind_the_map() {
    let mut random = Random::new(seed_or(0).wrapping_add(62));
    let mut cases = Cases::default();
    for _ in 0..1_000 {
        let Written { mut bytes, spots } = replies::good(&mut random);
        let more = 1 + random.below(3);
        bytes.extend_from_slice(&random.bytes(more));
        if !spots.is_empty() && bytes.len() <= LONGEST {
            expect_refused(&mut cases, &bytes, 0x12);
        }
    }
    hold(cases);
}

#[test]
fn a_reply_cut_anywhere() {
    let mut random = Random::new(seed_or(0).wrapping_add(63));
    let mut cases = Cases::default();
    while cases.lines.len() < 10_000 {
        let Written { bytes, .. } = replies::good(&mut random);
        for length in (2..bytes.len()).take(200) {
            expect_refused(&mut cases, &bytes[..length], 0x12);
        }
    }
    hold(cases);
}

#[test]
fn four_levels_with_the_outer_map() {
    let mut cases = Cases::default();
    for depth in 0..=5_usize {
        for shape in 0..1_usize << depth {
            for innermost in ["00", "60", "80", "a0"] {
                let around = |level| ["81", "a100"][shape >> level & 1];
                let inside: String = (0..depth).map(around).collect();
                let reply = format!("00a105{inside}{innermost}");
                let is_flat = ["00", "60"].contains(&innermost);
                let levels = 1 + depth + usize::from(!is_flat);
                let value = (inside.len() + innermost.len()) / 2;
                if levels > 4 {
                    cases.push(format!("apart {reply}"), "refused 12");
                    cases.push(format!("walk {reply}"), "refused 12");
                } else {
                    let map = 2 + value;
                    cases.push(format!("apart {reply}"), format!("status 00 map 1 {map}"));
                    let walked = format!("entry 2 1 3 {value}\nend");
                    cases.push(format!("walk {reply}"), walked);
                }
            }
        }
    }
    hold(cases);
}

#[test]
fn only_a_map_stands_behind_the_status() {
    let mut cases = Cases::default();
    for first in 0..=0xFF {
        for behind in [&b""[..], b"\x00", b"\x00\x00", b"\x00\x00\x00"] {
            let reply = [&[0x00, first], behind].concat();
            match (first, behind) {
                (0xA0, b"") | (0xA1, b"\x00\x00") => {}
                _ => expect_refused(&mut cases, &reply, 0x12),
            }
        }
    }
    hold(cases);
}

#[test]
fn sizes() {
    let mut cases = Cases::default();
    expect_refused(&mut cases, &[], 0x03);
    for size in [
        LONGEST - 1,
        LONGEST,
        LONGEST + 1,
        LONGEST + 2,
        8_192,
        12_000,
    ] {
        let long = Tree::String(BYTES, vec![0x5A; size - 6]);
        let reply = Tree::Map(vec![(Tree::unsigned(0), long)]).written_behind(&[0x00]);
        assert_eq!(reply.bytes.len(), size);
        // A breach that does not count where the reply is too long.
        let mut bad = reply.bytes.clone();
        bad[1] = 0xFF;
        if size > LONGEST {
            expect_refused(&mut cases, &reply.bytes, 0x03);
            expect_refused(&mut cases, &bad, 0x03);
        } else {
            expect(&mut cases, &reply);
            expect_refused(&mut cases, &bad, 0x12);
        }
    }
    hold(cases);
}
