//! The random scripts reach every row of document 01's tables, in every phase in which it can come
//! up and there for MSG as for the others, and every refusal and status: those of the checking call
//! at every sort of place they can have, those of an APDU with every set of other faults.

use model::trial::tally::Tally;
use model::trial::writer::{events_of, write_script};

const SCRIPTS: u64 = 160;

/// What comes up in every phase: broadcast, unknown channels, calls that are turned away.
const IN_EVERY_PHASE: [&str; 27] = [
    "broadcast PING: error 0b",
    "broadcast CBOR: error 0b",
    "broadcast MSG: error 0b",
    "broadcast CANCEL: error 0b",
    "broadcast another command: error 0b",
    "broadcast INIT: error 03",
    "broadcast INIT: error 7f",
    "broadcast INIT: channel below 65536",
    "broadcast INIT: channel beyond 65535",
    "broadcast INIT: the last channel",
    "broadcast continuation: ok",
    "unknown PING: error 0b",
    "unknown INIT: error 0b",
    "unknown CBOR: error 0b",
    "unknown MSG: error 0b",
    "unknown CANCEL: error 0b",
    "unknown another command: error 0b",
    "unknown continuation: ok",
    "given CANCEL: ok",
    "given continuation: ok",
    "packet of another size: refused 1",
    "packet: refused 2",
    "packet: refused 3",
    "time: refused 2",
    "fetch: refused 2",
    "fetch: refused 3",
    "deliver: refused 3",
];

/// What another channel comes to while the key is held.
const WHILE_HELD: [&str; 5] = [
    "given PING: error 06",
    "given CBOR: error 06",
    "given MSG: error 06",
    "given INIT: error 06",
    "given another command: error 06",
];

/// What comes up in the phases of a MSG as in those of the other commands.
const OF_ANY_COMMAND: [&str; 40] = [
    "gathering* holder CANCEL: ok",
    "gathering* holder INIT: error 03",
    "gathering* holder INIT: INIT reply",
    "gathering* holder PING: error 04",
    "gathering* holder CBOR: error 04",
    "gathering* holder MSG: error 04",
    "gathering* holder another command: error 04",
    "gathering* holder continuation: ok",
    "gathering* holder continuation: ticket",
    "gathering* holder continuation: error 04",
    "gathering* time: ok",
    "gathering* time: error 05",
    "gathering* fetch: refused 4",
    "gathering* deliver: refused 4",
    "waiting* holder CANCEL: ok",
    "waiting* holder INIT: error 03",
    "waiting* holder INIT: INIT reply",
    "waiting* holder PING: error 06",
    "waiting* holder CBOR: error 06",
    "waiting* holder MSG: error 06",
    "waiting* holder another command: error 06",
    "waiting* holder continuation: ok",
    "waiting* time: ok",
    "waiting* fetch: refused 4",
    "waiting* deliver: refused 5",
    "waiting* deliver: refused 6",
    "waiting* deliver two bytes: ok",
    "waiting* deliver one byte: refused 5",
    "waiting* deliver: ok",
    "answering* holder CANCEL: ok",
    "answering* holder INIT: error 03",
    "answering* holder INIT: INIT reply",
    "answering* holder PING: error 06",
    "answering* holder CBOR: error 06",
    "answering* holder MSG: error 06",
    "answering* holder another command: error 06",
    "answering* holder continuation: ok",
    "answering* time: ok",
    "answering* fetch: packet",
    "answering* deliver: refused 4",
];

/// The rest of the tables, and the checking and reading of commands and items.
const ONCE: [&str; 60] = [
    "idle given INIT: error 03",
    "idle given INIT: INIT reply",
    "idle given another command: error 01",
    "idle given PING: error 03",
    "idle given CBOR: error 03",
    "idle given MSG: error 03",
    "idle given MSG of no bytes: error 03",
    "idle given PING: ok",
    "idle given CBOR: ok",
    "idle given CBOR: ticket",
    "idle given MSG: ok",
    "idle given MSG: ticket",
    "idle given MSG: status 6700",
    "idle given MSG: status 6d00",
    "idle given MSG: status 6e00",
    "idle time: ok",
    "idle fetch: refused 4",
    "idle deliver: refused 4",
    "gathering MSG holder continuation: status 6700",
    "gathering MSG holder continuation: status 6d00",
    "gathering MSG holder continuation: status 6e00",
    "waiting deliver one byte: ok",
    "waiting MSG deliver one byte: refused 6",
    "out of order packet: refused 7",
    "out of order packet of another size: refused 7",
    "out of order time: refused 7",
    "out of order fetch: refused 7",
    "out of order deliver: refused 7",
    "overfull packet: refused 7",
    "overfull packet of another size: refused 7",
    "overfull time: refused 7",
    "overfull fetch: refused 7",
    "overfull deliver: refused 7",
    "check: status 01 at 0",
    "check: status 03 at 0",
    "check: status 03 at 1",
    "check: status 03 below 256",
    "check: status 03 beyond 255",
    "check: status 11 below 256",
    "check: status 11 beyond 255",
    "check: status 11 beyond 4095",
    "check: status 12 at 1",
    "check: status 12 below 256",
    "check: status 12 beyond 255",
    "check: status 12 beyond 4095",
    "check: status 12 at the length",
    "check: status 14 at 1",
    "check: status 14 below 256",
    "check: status 14 beyond 255",
    "check: status 26 below 256",
    "check: status 26 beyond 255",
    "check: good",
    "check: good hash",
    "item: item",
    "item: status 12 at 0",
    "item: status 12 below 256",
    "item: status 12 beyond 255",
    "item: status 12 at the length",
    "text: item",
    "text: status 12 at 0",
];

/// How an APDU's size goes with its length bytes, and what it gets where nothing else is wrong.
const APDU_SIZES: [(&str, &str); 6] = [
    ("fewer", "status 6700"),
    ("7 + n", "good"),
    ("8 + n", "status 6700"),
    ("9 + n", "good"),
    ("10 + n", "status 6700"),
    ("more", "status 6700"),
];

/// What else is wrong with an APDU, and what it gets whatever its length bytes say.
const APDU_FAULTS: [(&str, &str); 7] = [
    ("class", "status 6e00"),
    ("class, instruction", "status 6e00"),
    ("class, fifth", "status 6e00"),
    ("class, instruction, fifth", "status 6e00"),
    ("instruction", "status 6d00"),
    ("instruction, fifth", "status 6d00"),
    ("fifth", "status 6700"),
];

/// Every size of an APDU beside every set of other faults, and those of under seven bytes.
fn apdus() -> Vec<String> {
    let mut cases = Vec::new();
    for (size, answer) in APDU_SIZES {
        cases.push(format!("apdu of {size}: {answer}"));
        cases.extend(
            APDU_FAULTS.map(|(fault, answer)| format!("apdu of {size}, {fault}: {answer}")),
        );
    }
    for size in 0..7 {
        cases.push(format!("apdu of {size}: status 6700"));
    }
    for size in 1..7 {
        cases.push(format!("apdu of {size}, class: status 6700"));
    }
    cases
}

#[test]
fn every_row_comes_up() {
    let mut tally = Tally::default();
    for seed in 0..SCRIPTS {
        tally.add(write_script(seed, events_of(seed)).1);
    }
    let mut expected: Vec<String> = ONCE.map(String::from).to_vec();
    expected.extend(apdus());
    expected.extend(IN_EVERY_PHASE.map(|case| format!("idle {case}")));
    for command in ["", " MSG"] {
        expected.extend(OF_ANY_COMMAND.map(|case| case.replace('*', command)));
        for phase in ["gathering", "waiting", "answering"] {
            expected.extend(IN_EVERY_PHASE.map(|case| format!("{phase}{command} {case}")));
            expected.extend(WHILE_HELD.map(|case| format!("{phase}{command} {case}")));
        }
    }
    expected.retain(|case| !tally.0.contains_key(case));
    assert!(expected.is_empty(), "no script reaches {expected:#?}");
}

#[test]
fn a_seed_repeats_its_script() {
    let (one, _) = write_script(7, 300);
    let (other, _) = write_script(7, 300);
    assert_eq!(one.lines, other.lines);
}
