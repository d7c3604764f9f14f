//! The real program against the model, row by row: every command at every bound in every phase,
//! every bound of a state, every refusal beside every other, every pair of first bytes of an item.

mod common;

use common::{agree, hex};
use model::packet::{cut, Channel, CBOR, LONGEST, MSG, PACKET, PING};

/// States in order, of each phase; who holds the key is channel 2, or the last that can be given.
const PHASES: [&str; 17] = [
    "state 3 9 idle",
    "state 65535 9 idle",
    "state 4294967293 9 idle",
    "state 4294967294 9 idle",
    "state 3 9 gathering 2 1 7609 1 3000",
    "state 3 9 gathering 2 16 7609 128 1",
    "state 3 4294967295 gathering 2 16 58 1 1",
    "state 3 9 gathering 2 3 58 1 3000",
    "state 3 9 gathering 2 3 7609 128 1",
    "state 3 9 waiting 2 16 7609",
    "state 3 9 waiting 2 3 7609",
    "state 3 9 answering 2 1 58 1",
    "state 3 9 answering 2 16 7609 0",
    "state 3 9 answering 2 3 2 0",
    "state 4294967294 9 gathering 4294967294 16 58 1 3000",
    "state 4294967294 9 waiting 4294967294 16 7609",
    "state 4294967294 9 answering 4294967294 1 58 1",
];

/// Nobody's channel, a holder's, another's, one not given yet, the last, broadcast.
const CHANNELS: [u32; 6] = [0, 2, 3, 4, 0xFFFF_FFFE, 0xFFFF_FFFF];

/// A packet whose payload tells where it comes from.
fn packet(channel: Channel, byte_4: u8, length: u16) -> String {
    let mut packet = [(channel.0 as u8).wrapping_add(0x40); PACKET];
    packet[..4].copy_from_slice(&channel.0.to_be_bytes());
    packet[4] = byte_4;
    if byte_4 >= 0x80 {
        packet[5..7].copy_from_slice(&length.to_be_bytes());
    }
    format!("packet {}", hex(&packet))
}

/// Shows the state and the first bytes of the message buffer.
fn peek(lines: &mut Vec<String>) {
    for line in ["message 120", "show", "message 7609"] {
        lines.push(line.to_string());
    }
}

#[test]
fn every_opening_in_every_phase() {
    for phase in PHASES {
        let mut lines = Vec::new();
        for channel in CHANNELS {
            for command in 0..=0x7F {
                for length in [0, 1, 7, 8, 9, 57, 58, 7_609, 7_610, 65_535] {
                    lines.push(phase.to_string());
                    lines.push(packet(Channel(channel), 0x80 | command, length));
                    if [1, 8, 7_609].contains(&length) {
                        peek(&mut lines);
                    }
                }
            }
        }
        agree(lines);
    }
}

#[test]
fn every_continuation_in_every_phase() {
    let mut lines = Vec::new();
    for phase in PHASES {
        for channel in CHANNELS {
            for number in 0..=0x7F {
                lines.push(phase.to_string());
                lines.push(packet(Channel(channel), number, 0));
                peek(&mut lines);
            }
        }
    }
    agree(lines);
}

#[test]
fn every_bound_of_a_state() {
    let mut lines = Vec::new();
    let mut state = |state: String| {
        lines.push(state);
        lines.push("time 0".to_string());
    };
    let numbers = [
        0,
        1,
        2,
        3,
        65_534,
        65_535,
        65_536,
        65_537,
        1 << 31,
        4_294_967_293,
        4_294_967_294,
        u32::MAX,
    ];
    for channels in numbers {
        state(format!("state {channels} 0 idle"));
        for holder in numbers {
            state(format!("state {channels} 0 waiting {holder} 16 1"));
            state(format!("state {channels} 0 answering {holder} 16 1 0"));
            state(format!("state {channels} 0 gathering {holder} 16 58 1 1"));
        }
    }
    for command in 0..=0x7F {
        for length in [0, 1, 57, 58, 116, 117, 7_609, 7_610, 65_535] {
            state(format!("state 1 0 waiting 1 {command} {length}"));
            for done in [0, 1, 2, 3, 128, 129] {
                state(format!("state 1 0 answering 1 {command} {length} {done}"));
                state(format!("state 1 0 gathering 1 {command} {length} {done} 1"));
            }
        }
    }
    for left in [0, 1, 2_999, 3_000, 3_001, 65_535] {
        for done in 0..=130 {
            state(format!("state 1 0 gathering 1 1 7609 {done} {left}"));
        }
    }
    agree(lines);
}

#[test]
fn every_refusal_beside_every_other() {
    let mut calls: Vec<String> = ["time 0", "time 4294967295", "fetch", "packet"]
        .map(String::from)
        .to_vec();
    for size in [63, 64, 65] {
        calls.push(format!("packet {}", "00".repeat(size)));
    }
    for ticket in [8, 9, 10] {
        calls.push(format!("deliver {ticket}"));
        for length in [1, 2, LONGEST, LONGEST + 1] {
            calls.push(format!("deliver {ticket} {}", "5a".repeat(length)));
        }
    }
    let out_of_order = [
        "state 4294967295 9 idle",
        "state 1 9 waiting 2 16 7609",
        "state 3 9 waiting 2 1 7609",
        "state 3 9 answering 2 1 58 2",
    ];
    let mut lines = Vec::new();
    for state in PHASES.iter().chain(&out_of_order) {
        for reply in [0, 63, 64, 65] {
            for message in [0, 7_608, 7_609, 7_610] {
                for call in &calls {
                    lines.push(format!("reply {reply}"));
                    lines.push(format!("message {message}"));
                    lines.push(state.to_string());
                    lines.push(call.clone());
                    lines.push("reply 128".to_string());
                    peek(&mut lines);
                }
            }
        }
        lines.push("message 8192".to_string());
        lines.push("show".to_string());
    }
    agree(lines);
}

#[test]
fn every_step_of_time() {
    let mut lines = Vec::new();
    for command in [PING, MSG, CBOR] {
        for left in [1, 2, 1_500, 2_999, 3_000] {
            let near = [left - 1, left, left + 1];
            for elapsed in [0, 1, 2_999, 3_000, 3_001, 1 << 31, u32::MAX]
                .into_iter()
                .chain(near)
            {
                lines.push(format!("state 1 0 gathering 1 {command} 58 1 {left}"));
                lines.push(format!("time {elapsed}"));
                peek(&mut lines);
            }
        }
    }
    agree(lines);
}

#[test]
fn every_pair_of_first_bytes_of_an_item() {
    for levels in [0, 1, 4] {
        let mut lines = Vec::new();
        for first in 0..=0xFF_u8 {
            for second in 0..=0xFF_u8 {
                lines.push(format!("item {levels} {first:02x}{second:02x}"));
            }
            lines.push(format!("item {levels} {first:02x}"));
        }
        agree(lines);
    }
}

#[test]
fn every_length_of_a_message() {
    let mut lines = vec!["state 1 0 idle".to_string()];
    for length in 0..=400_usize {
        lines.push(packet(Channel(1), 0x80 | PING, length as u16));
        for number in 0..length.saturating_sub(57).div_ceil(59) {
            lines.push(packet(Channel(1), number as u8, 0));
        }
        for _ in 0..=1 + length.saturating_sub(57).div_ceil(59) {
            lines.push("fetch".to_string());
        }
    }
    agree(lines);
}

/// An APDU of as many bytes, whose length bytes say this.
fn apdu(class: u8, instruction: u8, fifth: u8, size: usize, length: u16) -> Vec<u8> {
    let [high, low] = length.to_be_bytes();
    let mut apdu = vec![class, instruction, 0x00, 0x00, fifth, high, low];
    apdu.resize(size, 0x61);
    apdu
}

/// APDUs that are handed on and ones that get each of our answers, of sizes around which packets
/// are added.
fn apdus() -> Vec<Vec<u8>> {
    let headers = [
        (0x00, 1, 0x00),
        (0x00, 3, 0x00),
        (0x00, 0, 0x00),
        (0x00, 4, 0x01),
        (0x00, 2, 0x01),
        (0x00, 2, 0x80),
        (0x01, 1, 0x00),
        (0x80, 0, 0xFF),
    ];
    let mut apdus = Vec::new();
    for size in (1..=10).chain([57, 58, 116, 117, 7_608, LONGEST]) {
        for (class, instruction, fifth) in headers {
            for length in size.saturating_sub(10)..=size.saturating_sub(7) {
                apdus.push(apdu(class, instruction, fifth, size, length as u16));
            }
        }
    }
    apdus
}

#[test]
fn every_message_of_msg() {
    let calls = [
        "deliver 1",
        "deliver 1 90",
        "deliver 0 9000",
        "deliver 1 9000",
    ];
    let mut lines = Vec::new();
    for apdu in apdus() {
        lines.push("state 2 0 idle".to_string());
        for packet in cut(Channel(1), MSG, &apdu) {
            lines.push(format!("packet {}", hex(&packet)));
        }
        peek(&mut lines);
        for channel in [2, 1] {
            lines.push(packet(Channel(channel), 0x91, 0));
        }
        for call in calls {
            peek(&mut lines);
            lines.push(call.to_string());
        }
        for _ in 0..2 {
            peek(&mut lines);
            lines.push("fetch".to_string());
        }
    }
    agree(lines);
}

#[test]
fn every_length_of_a_delivery() {
    let mut lines = Vec::new();
    for command in [MSG, CBOR] {
        for length in (0..=180).chain([7_607, 7_608, LONGEST, LONGEST + 1]) {
            lines.push(format!("state 1 9 waiting 1 {command} 1"));
            lines.push(
                format!("deliver 9 {}", "5a".repeat(length))
                    .trim_end()
                    .to_string(),
            );
            peek(&mut lines);
            for _ in 0..=2 + length / 59 {
                lines.push("fetch".to_string());
            }
        }
    }
    agree(lines);
}
