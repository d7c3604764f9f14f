//! The firmware's archive against the model, call by call in one process (request 2026-05): the
//! words, the blocks and every other byte that is lent or lies around it.

use std::time::Instant;

use model::archive::ARCHIVE;
use model::trial::calls::run::compare;
use model::trial::run::{seed_or, Enough};

const EVENTS: u64 = 2_000_000;

#[test]
fn the_archive_agrees_with_the_model() {
    let seed = seed_or(1);
    println!("SEED={seed}");
    let begin = Instant::now();
    let done = match compare(&ARCHIVE, seed, Enough::Events(EVENTS), |_| {}) {
        Ok(done) => done,
        Err(difference) => panic!("{difference}"),
    };
    println!("{} events in {:?}", done.events, begin.elapsed());
    println!("{}", done.ways);
    let names = done.ways.names();
    let mut expected = ways();
    expected.retain(|way| !names.contains(way));
    assert!(expected.is_empty(), "no event reaches {expected:#?}");
}

/// What a call meets that it turns away with 7, beside a short block; each named fault is the only
/// one, as each field that a phase has no use for.
const BAD_BLOCKS: [&str; 14] = [
    "other mark",
    "other phase",
    "spare byte",
    "field 3 in phase 0",
    "field 12 in phase 0",
    "field 16 in phase 0",
    "field 20 in phase 0",
    "field 24 in phase 0",
    "field 20 in phase 2",
    "field 24 in phase 2",
    "field 24 in phase 3",
    "too wide",
    "several faults",
    "out of order",
];

/// What every call but the checking one and that for a fresh key answers to such a block: 7, also
/// where another number applies.
const ON_BAD_BLOCKS: [&str; 11] = [
    "packet: refused 7",
    "packet: refused 7 before 1",
    "packet: refused 7 before 2",
    "packet: refused 7 before 3",
    "time: refused 7",
    "time: refused 7 before 2",
    "deliver: refused 7",
    "deliver: refused 7 before 3",
    "fetch: refused 7",
    "fetch: refused 7 before 2",
    "fetch: refused 7 before 3",
];

const IN_EVERY_PHASE: [&str; 14] = [
    "fresh: 0",
    "packet: 0",
    "packet: INIT reply",
    "packet: error 03",
    "packet: error 0b",
    "packet: error 7f",
    "packet: refused 1",
    "packet: refused 2",
    "packet: refused 3",
    "time: 0",
    "time: refused 2",
    "deliver: refused 3",
    "fetch: refused 2",
    "fetch: refused 3",
];

const IDLE: [&str; 4] = [
    "packet: error 01",
    "packet: ticket",
    "deliver: refused 4",
    "fetch: refused 4",
];

const GATHERING: [&str; 5] = [
    "packet: error 04",
    "packet: error 06",
    "time: error 05",
    "deliver: refused 4",
    "fetch: refused 4",
];

const WAITING: [&str; 5] = [
    "packet: error 06",
    "deliver: 0",
    "deliver: refused 5",
    "deliver: refused 6",
    "fetch: refused 4",
];

const ANSWERING: [&str; 4] = [
    "packet: error 06",
    "deliver: refused 4",
    "fetch: first packet",
    "fetch: later packet",
];

const CHECKS: [&str; 8] = [
    "check: 0",
    "check: hash",
    "check: status 01",
    "check: status 03",
    "check: status 11",
    "check: status 12",
    "check: status 14",
    "check: status 26",
];

/// Every way that a call can go, by what it meets.
fn ways() -> Vec<String> {
    let mut ways = Vec::new();
    let mut meeting = |met: &str, calls: &[&str]| {
        ways.extend(
            calls
                .iter()
                .map(|call| call.replacen(':', &format!(", {met}:"), 1)),
        );
    };
    meeting("no block", &CHECKS);
    meeting("short block", &ON_BAD_BLOCKS);
    meeting("short block", &["fresh: refused 7"]);
    for bad in BAD_BLOCKS {
        meeting(bad, &ON_BAD_BLOCKS);
        meeting(bad, &["fresh: 0"]);
    }
    meeting("idle", &IN_EVERY_PHASE);
    meeting("idle", &IDLE);
    for (phase, calls, commands) in [
        ("gathering", &GATHERING[..], &["PING", "MSG", "CBOR"][..]),
        ("waiting", &WAITING, &["MSG", "CBOR"]),
        ("answering", &ANSWERING, &["PING", "MSG", "CBOR"]),
    ] {
        for command in commands {
            meeting(&format!("{phase} {command}"), &IN_EVERY_PHASE);
            meeting(&format!("{phase} {command}"), calls);
        }
    }
    for command in ["MSG", "CBOR"] {
        meeting(&format!("gathering {command}"), &["packet: ticket"]);
    }
    // From nothing to twice the block.
    ways.extend((0..=64).map(|length| format!("a block of {length} bytes")));
    ways
}
