//! Other rules for an APDU.

use model::line::{self, Line};
use model::pipe::OnPipe;
use model::trial::run::{Difference, Done};

use super::compared;

/// Whether an APDU has a fault.
type IsBroken = fn(&[u8]) -> bool;
/// A fault, and the status that an APDU gets for it.
type Rule = (IsBroken, u16);

// The right rules; an APDU gets the status of the first that it breaks.
const SHORT: Rule = (|apdu| apdu.len() < 7, 0x6700);
const CLASS: Rule = (|apdu| byte(apdu, 0) != 0, 0x6E00);
const INSTRUCTION: Rule = (|apdu| !(1..=3).contains(&byte(apdu, 1)), 0x6D00);
const FIFTH: Rule = (|apdu| byte(apdu, 4) != 0, 0x6700);
const LENGTH: Rule = (|apdu| ![7, 9].contains(&beyond(apdu)), 0x6700);

/// A byte of an APDU, 0 where it ends before.
fn byte(apdu: &[u8], place: usize) -> u8 {
    apdu.get(place).copied().unwrap_or(0)
}

/// What the two length bytes say.
fn length(apdu: &[u8]) -> i64 {
    i64::from(u16::from_be_bytes([byte(apdu, 5), byte(apdu, 6)]))
}

/// How many bytes there are beyond those that the length bytes say.
fn beyond(apdu: &[u8]) -> i64 {
    apdu.len() as i64 - length(apdu)
}

/// Compares the model with a key that reads APDUs by these rules.
fn compared_by(rules: &[Rule]) -> Result<Done, Box<Difference>> {
    compared(|bench, line, out| {
        let start = out.len();
        bench.line(line.as_bytes(), out);
        if let Some(Line::Apdu(apdu)) = line::read(line.as_bytes()) {
            out.truncate(start);
            let answer = match rules.iter().find(|(is_broken, _)| is_broken(&apdu)) {
                None => "good\n".to_string(),
                Some((_, status)) => format!("status {status:04x}\n"),
            };
            out.extend_from_slice(answer.as_bytes());
        }
    })
}

/// The model and a key that reads APDUs by these rules differ, in one line.
fn assert_caught(name: &str, rules: &[Rule]) {
    let difference = compared_by(rules).expect_err(name);
    assert_eq!(difference.lines.len(), 1, "{name}: {difference}");
}

#[test]
fn looking_for_faults_in_their_order() {
    if let Err(difference) = compared_by(&[SHORT, CLASS, INSTRUCTION, FIFTH, LENGTH]) {
        panic!("{difference}");
    }
}

#[test]
fn looking_for_faults_in_another_order() {
    let orders = [
        [CLASS, SHORT, INSTRUCTION, FIFTH, LENGTH],
        [INSTRUCTION, SHORT, CLASS, FIFTH, LENGTH],
        [SHORT, INSTRUCTION, CLASS, FIFTH, LENGTH],
        [SHORT, FIFTH, CLASS, INSTRUCTION, LENGTH],
        [SHORT, LENGTH, CLASS, INSTRUCTION, FIFTH],
        [SHORT, CLASS, FIFTH, INSTRUCTION, LENGTH],
        [SHORT, CLASS, LENGTH, INSTRUCTION, FIFTH],
        [SHORT, INSTRUCTION, FIFTH, LENGTH, CLASS],
        [SHORT, CLASS, FIFTH, LENGTH, INSTRUCTION],
    ];
    for (number, rules) in orders.iter().enumerate() {
        assert_caught(&format!("order {number}"), rules);
    }
}

#[test]
fn leaving_a_fault_out() {
    assert_caught("class", &[SHORT, INSTRUCTION, FIFTH, LENGTH]);
    assert_caught("instruction", &[SHORT, CLASS, FIFTH, LENGTH]);
    assert_caught("fifth byte", &[SHORT, CLASS, INSTRUCTION, LENGTH]);
    assert_caught("length", &[SHORT, CLASS, INSTRUCTION, FIFTH]);
}

#[test]
fn taking_other_instructions() {
    let instructions: [IsBroken; 4] = [
        |apdu| byte(apdu, 1) > 3,
        |apdu| !(1..=4).contains(&byte(apdu, 1)),
        |apdu| !(1..=2).contains(&byte(apdu, 1)),
        |apdu| !(1..=3).contains(&(byte(apdu, 1) & 0x7F)),
    ];
    for is_broken in instructions {
        let rules = [SHORT, CLASS, (is_broken, 0x6D00), FIFTH, LENGTH];
        assert_caught("instruction", &rules);
    }
}

#[test]
fn adding_lengths_up_otherwise() {
    let lengths: [(&str, IsBroken); 9] = [
        ("8 + n too", |apdu| !(7..=9).contains(&beyond(apdu))),
        ("10 + n too", |apdu| ![7, 9, 10].contains(&beyond(apdu))),
        ("6 + n too", |apdu| ![6, 7, 9].contains(&beyond(apdu))),
        ("no reply length", |apdu| beyond(apdu) != 7),
        ("always a reply length", |apdu| beyond(apdu) != 9),
        ("any bytes behind the data", |apdu| beyond(apdu) < 7),
        ("any length that is too long", |apdu| beyond(apdu) > 9),
        ("the low byte alone", |apdu| {
            ![7, 9].contains(&(apdu.len() as i64 - i64::from(byte(apdu, 6))))
        }),
        ("a sum of 16 bits", |apdu| {
            ![7, 9].contains(&beyond(apdu).rem_euclid(1 << 16))
        }),
    ];
    for (name, is_broken) in lengths {
        assert_caught(
            name,
            &[SHORT, CLASS, INSTRUCTION, FIFTH, (is_broken, 0x6700)],
        );
    }
}
