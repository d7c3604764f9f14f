//! The random scripts of the viewer's end reach every rule of request 2026-04: every refusal of a
//! command at every sort of size, and every sort of packet at every point of a gathering.

use model::trial::tally::Tally;
use model::trial::viewer::writer::{events_of, write_script};

const SCRIPTS: u64 = 120;

/// The sizes of commands that get 8 where nothing else is wrong.
const TOO_LONG: [&str; 4] = [
    " over 7609",
    " over 7609 in its room",
    " over the room",
    " over the room by one",
];

/// The sizes of commands that are written where nothing else is wrong.
const SHORT_ENOUGH: [&str; 3] = ["", " of 7609", " as long as the room"];

/// What comes up once: requests to cut and replies to take apart.
const ONCE: [&str; 24] = [
    "cut of none: packet",
    "cut in 1: packet",
    "cut in 2: packet",
    "cut in 3: packet",
    "cut in more: packet",
    "cut of 7609: packet",
    "cut of 7610: refused 8",
    "cut of more: refused 8",
    "apart of none: refused 03",
    "apart of a status: status",
    "apart: map",
    "apart: refused 12",
    "apart of 7609: map",
    "apart of 7610: refused 03",
    "walk of none: refused 03",
    "walk of a status: end",
    "walk: end",
    "walk: refused 12",
    "walk of 7609: end",
    "walk of 7610: refused 03",
    "packet before any gathering: no line",
    "awaited own opening: whole",
    "awaited own opening: more",
    "begun own continuation: whole",
];

/// What packets of the gathering's channel do to it.
const OWN: [&str; 13] = [
    "awaited own opening of another command: ended 01",
    "awaited own opening of another command over 7609: ended 01",
    "awaited own opening over 7609: ended 03",
    "awaited own error: ended with a code",
    "awaited own error over 7609: ended with a code",
    "awaited own continuation: more",
    "begun own continuation: more",
    "begun own wrong continuation: ended 04",
    "begun own opening: ended 04",
    "begun own opening of another command: ended 04",
    "begun own opening over 7609: ended 04",
    "begun own error: ended with a code",
    "begun own error over 7609: ended with a code",
];

/// What packets can be; in some phases they do nothing.
const PACKETS: [&str; 6] = [
    "continuation",
    "opening",
    "opening over 7609",
    "opening of another command",
    "error",
    "error over 7609",
];

/// Every status of a command beside every size.
fn commands() -> Vec<String> {
    let mut cases = Vec::new();
    for (word, statuses) in [
        ("get", &["03", "11", "12", "14"][..]),
        ("make", &["03", "11", "12", "14", "26"]),
    ] {
        cases.push(format!("{word} of no parts: refused 14"));
        cases.extend(TOO_LONG.map(|size| format!("{word}{size}: refused 8")));
        cases.extend(SHORT_ENOUGH.map(|size| format!("{word}{size}: bytes")));
        for size in TOO_LONG.iter().chain(&SHORT_ENOUGH[..1]) {
            cases.extend(
                statuses
                    .iter()
                    .map(|status| format!("{word}{size}: refused {status}")),
            );
        }
    }
    cases
}

/// Packets that change nothing, and ones of another size, at every point of a gathering.
fn packets() -> Vec<String> {
    let mut cases = OWN.map(String::from).to_vec();
    for phase in ["awaited", "begun", "whole", "ended"] {
        cases.push(format!("{phase} packet of another size: refused 1"));
    }
    for packet in ["opening", "error"] {
        cases.push(format!("awaited another's {packet}: more"));
        cases.push(format!("begun another's {packet}: more"));
    }
    cases.push("awaited another's continuation: more".to_string());
    cases.push("begun another's continuation: more".to_string());
    for packet in PACKETS {
        cases.push(format!("whole own {packet}: whole"));
        for code in ["01", "03", "04", "with a code"] {
            cases.push(format!("ended own {packet}: ended {code}"));
        }
    }
    cases
}

#[test]
fn every_rule_comes_up() {
    let mut tally = Tally::default();
    for seed in 0..SCRIPTS {
        tally.add(write_script(seed, events_of(seed)).1);
    }
    let mut expected: Vec<String> = ONCE.map(String::from).to_vec();
    expected.extend(commands());
    expected.extend(packets());
    expected.retain(|case| !tally.0.contains_key(case));
    assert!(expected.is_empty(), "no script reaches {expected:#?}");
}

#[test]
fn a_seed_repeats_its_script() {
    let (one, _) = write_script(7, 300);
    let (other, _) = write_script(7, 300);
    assert_eq!(one.lines, other.lines);
}
