//! Lines of the viewer's end: requests cut into packets, numbers and bytes in every form, and lines
//! that are none. The program and the model against answers that come from neither.

mod viewer_common;

use model::packet::LONGEST;
use model::trial::cases::Cases;
use model::trial::random::Random;
use model::trial::run::seed_or;
use viewer_common::{hex, hold};

/// Bytes in the longest line.
const LONGEST_LINE: usize = 40_000;

/// The packets of a request, a line each.
fn packets(channel: u32, command: u8, request: &[u8]) -> String {
    let [high, low] = (request.len() as u16).to_be_bytes();
    let (first, rest) = request.split_at(request.len().min(57));
    let opening = format!(
        "{channel:08x}{:02x}{high:02x}{low:02x}{}",
        0x80 | command,
        hex(first)
    );
    let later = rest.chunks(59).enumerate();
    let later = later.map(|(number, part)| format!("{channel:08x}{number:02x}{}", hex(part)));
    let lines = [opening].into_iter().chain(later);
    let lines: Vec<String> = lines.map(|start| format!("packet {start:0<128}")).collect();
    lines.join("\n")
}

fn expect_cut(cases: &mut Cases, channel: u32, command: u8, request: &[u8]) {
    let line = format!("cut {channel} {command} {}", hex(request));
    let answer = if request.len() > LONGEST {
        "refused 8".to_string()
    } else {
        packets(channel, command, request)
    };
    cases.push(line.trim_end().to_string(), answer);
}

#[test]
fn every_length_of_a_request() {
    let mut random = Random::new(seed_or(0).wrapping_add(70));
    let mut cases = Cases::default();
    let long = [4_000, 7_549, 7_550, 7_551, LONGEST - 1, LONGEST];
    let too_long = [LONGEST + 1, LONGEST + 2, 8_192, 12_000, 19_000];
    for length in (0..=360).chain(long).chain(too_long) {
        let channel = random.number() as u32;
        let request = random.bytes(length);
        expect_cut(&mut cases, channel, 16, &request);
    }
    hold(cases);
}

#[test]
fn every_command_and_sorts_of_channels() {
    let mut cases = Cases::default();
    for command in 0..=0x7F {
        for channel in [0, 1, 0x0102_0304, 0x8000_0000, 0xFFFF_FFFE, 0xFFFF_FFFF] {
            expect_cut(&mut cases, channel, command, &[0x5A; 58]);
        }
    }
    hold(cases);
}

#[test]
fn forms_of_numbers_and_bytes() {
    let mut cases = Cases::default();
    let packet = packets(1, 16, &[0xAB]);
    let zeros = "0".repeat(100);
    for line in [
        "cut 1 16 ab",
        "cut 1 16 AB",
        "cut 1 16 aB",
        "cut 01 0016 ab",
    ] {
        cases.push(line.to_string(), &*packet);
    }
    cases.push(format!("cut {zeros}1 {zeros}16 ab"), packet);
    for line in ["cut 1 16", "cut 1 16 "] {
        cases.push(line.to_string(), packets(1, 16, &[]));
    }
    for line in ["apart", "apart ", "walk", "walk "] {
        cases.push(line.to_string(), "refused 03");
    }
    cases.push("await 1 16".to_string(), "");
    for line in ["packet", "packet ", "packet aB"] {
        cases.push(line.to_string(), "refused 1");
    }
    for word in ["make", "get"] {
        cases.push(word.to_string(), "refused 14");
        cases.push(format!("{word} 1="), "refused 12");
        cases.push(format!("{word} 7=00 1="), "refused 12");
        cases.push(format!("{word} 7=F5"), "refused 11");
    }
    for room in ["0", "8192", "0008192"] {
        cases.push(format!("room {room}"), "");
    }
    hold(cases);
}

/// Lines that are none of the protocol's.
const BAD: [&str; 67] = [
    " ",
    "  ",
    "-",
    "?",
    "make ",
    "make  1=00",
    " make 1=00",
    "make 1=00 ",
    "make 1=00  2=a0",
    "make 1",
    "make =",
    "make =00",
    "make 1==",
    "make 1=00=",
    "make 1=0",
    "make 1=000",
    "make 1=0g",
    "make 1= 1=",
    "make 1=00 2=a0 1=00",
    "make 01=",
    "make 1= 01=",
    "make 0=00",
    "make 10=00",
    "make 11=00",
    "make 257=00",
    "make 4294967297=00",
    "make 18446744073709551617=00",
    "make -1=00",
    "make +1=00",
    "make 1 =00",
    "make 0x1=00",
    "Make 1=00",
    "makes 1=00",
    "make1=00",
    "get 8=00",
    "get 9=00",
    "get 0=00",
    "get 7=00 7=00",
    "get 1=00 2",
    "get ",
    "room",
    "room ",
    "room 8193",
    "room -1",
    "room 7609 ",
    "room 18446744073709551616",
    "cut",
    "cut 1",
    "cut 1 ",
    "cut 1 128",
    "cut 1 144 00",
    "cut 4294967296 16",
    "cut -1 16",
    "cut 1 16 -",
    "cut 1 16 0",
    "cut 1 16 00 00",
    "await",
    "await 1",
    "await 1 128",
    "await 1 16 ",
    "await 1 16 00",
    "await 4294967296 1",
    "packet 0",
    "packet 00 00",
    "apart 0",
    "apart -",
    "walk 0g",
];

#[test]
fn lines_that_are_none() {
    let mut cases = Cases::default();
    let mut line = 0;
    let mut push = |text: &str, answer: &str| {
        line += 1;
        cases.push(text.to_string(), answer.replace('N', &line.to_string()));
    };
    push("", "");
    push("# packet", "");
    // There is no gathering yet.
    push("packet", "? line N");
    push(&format!("packet {}", "00".repeat(64)), "? line N");
    push("await 1 128", "? line N");
    push(&format!("packet {}", "00".repeat(64)), "? line N");
    // None of them changes the room or the gathering.
    push("room 0", "");
    push("await 7 16", "");
    for bad in BAD {
        push(bad, "? line N");
        push(&format!("packet {:0<128}", "000000079000"), "whole -");
        push("get 1=60", "refused 14");
    }
    hold(cases);
}

#[test]
fn the_longest_lines() {
    let mut cases = Cases::default();
    cases.push("await 1 16".to_string(), "");
    for (words, answer) in [
        ("make 8=", "refused 12"),
        ("get 2=", "refused 12"),
        ("cut 1 16 ", "refused 8"),
        ("packet ", "refused 1"),
        ("apart ", "refused 03"),
        ("walk ", "refused 03"),
        ("#", ""),
        ("# ", ""),
    ] {
        let bytes = (LONGEST_LINE - words.len()) / 2;
        let longest = format!("{words}{}", "5a".repeat(bytes));
        cases.push(longest, answer);
        let number = cases.lines.len() + 1;
        let too_long = format!("{words}{}", "5a".repeat(bytes + 1));
        cases.push(too_long, format!("? line {number}"));
        let far_too_long = format!("{words}{}", "5a".repeat(3 * bytes));
        cases.push(far_too_long, format!("? line {}", number + 1));
    }
    hold(cases);
}
