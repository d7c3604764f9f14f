//! Hosts get channels in turn up to the last, whatever else is going on. The channels are counted
//! here without the model, and every answer is compared with it.

mod common;

use common::{agree, hex, program};
use model::line;
use model::packet::{cut, Channel, BROADCAST, CANCEL, CBOR, INIT, PING};

/// The last channel that can be given.
const LAST: u32 = 4_294_967_294;
/// How many hosts ask for a channel, four in a round.
const HOSTS: u32 = 12;

/// The packets of a message, a line each.
fn packets(channel: u32, command: u8, message: &[u8]) -> Vec<String> {
    cut(Channel(channel), command, message)
        .map(|packet| format!("packet {}", hex(&packet)))
        .collect()
}

/// Hosts come one after another to a key that has given so many channels.
fn story(given: u32) -> Vec<String> {
    let channel = |host: u32| LAST.min(given.saturating_add(host));
    let greeting = packets(BROADCAST.0, INIT, &[0x5A; 8]);
    let fetch = ["fetch".to_string()];
    let peek = ["message 60", "show", "message 7609"].map(String::from);
    let mut lines = vec![format!("state {given} 0 idle")];
    for (host, ticket) in (1..=HOSTS).step_by(4).zip(1..) {
        let newest = channel(host + 3);
        let ping = packets(channel(host), PING, &[0x61; 58]);
        let round = [
            // One finds the key idle, and the others while it gathers, answers and waits.
            &greeting[..],
            &ping[..1],
            &greeting,
            &ping[1..],
            &greeting,
            &fetch,
            &fetch,
            &packets(channel(host + 2), CBOR, &[0x04]),
            &greeting,
            // Channel 1 does not hold the key.
            &packets(1, PING, &[0x62]),
            &[format!("deliver {ticket} 00a0")],
            &fetch,
            // The newest is known, the number after it is not: it is the next or broadcast.
            &packets(newest, INIT, &[0xA5; 8]),
            &packets(newest, PING, &[0x63]),
            &fetch,
            &packets(newest + 1, PING, &[0x64]),
            // None of these asks for a channel.
            &packets(BROADCAST.0, CBOR, &[0x04]),
            &packets(BROADCAST.0, CANCEL, &[]),
            &packets(BROADCAST.0, INIT, &[0x5A; 7]),
            &peek,
        ];
        lines.extend(round.concat());
    }
    lines
}

/// What a host got that asked for a channel: one, or none where the key is full. Other answers are
/// left out.
fn channel_got(answer: &str) -> Option<Option<u32>> {
    let packet = line::decode(answer.strip_prefix("ok reply ")?)?;
    match packet[..] {
        [0xFF, 0xFF, 0xFF, 0xFF, 0x86, ..] => {
            let channel = packet[15..19].try_into().expect("a channel is four bytes");
            Some(Some(u32::from_be_bytes(channel)))
        }
        [0xFF, 0xFF, 0xFF, 0xFF, 0xBF, 0x00, 0x01, 0x7F, ..] => Some(None),
        _ => None,
    }
}

#[test]
fn hosts_get_the_next_channel_up_to_the_last() {
    for given in [0, 65_530, 4_294_967_290] {
        let lines = story(given);
        let outcome = program().run(&lines);
        let answers = String::from_utf8_lossy(&outcome.answers);
        let got: Vec<Option<u32>> = answers.lines().filter_map(channel_got).collect();
        // No number comes twice, and neither 0 nor broadcast is among them.
        let in_turn: Vec<Option<u32>> = (1..=HOSTS)
            .map(|host| given.checked_add(host).filter(|&next| next <= LAST))
            .collect();
        assert_eq!(got, in_turn, "after {given} channels");
        agree(lines);
    }
}
