//! Gathering, row by row: every opening and every continuation at every point of a gathering. The
//! program and the model against answers that come from neither.

mod viewer_common;

use model::packet::{cut, Channel, CBOR, ERROR, LONGEST, MSG, PACKET, PING};
use model::trial::cases::Cases;
use model::trial::random::Random;
use model::trial::run::seed_or;
use viewer_common::{hex, hold};

const OWN: Channel = Channel(0x0102_0304);
/// Channels of which a part is that of the own one, or that are it the other way round.
const OTHERS: [Channel; 7] = [
    Channel(0x0102_0305),
    Channel(0x0102_0204),
    Channel(0x0100_0304),
    Channel(0x0002_0304),
    Channel(0x0403_0201),
    Channel(0),
    Channel(0xFFFF_FFFF),
];

/// A point of a gathering of a reply to CBOR on the own channel.
#[derive(Clone)]
struct Point {
    /// The packets that lead to it.
    before: Vec<[u8; PACKET]>,
    /// The number of the next continuation, once there is an opening.
    next: Option<u8>,
    /// What every packet gets, where the gathering has ended.
    end: Option<String>,
}

/// The bytes of a reply.
fn reply(length: usize) -> Vec<u8> {
    (0..length).map(|n| n as u8 ^ 0x5A).collect()
}

fn whole(reply: &[u8]) -> String {
    match reply {
        [] => "whole -".to_string(),
        _ => format!("whole {}", hex(reply)),
    }
}

/// The first `done` packets of a reply of this length.
fn after(length: usize, done: usize) -> Point {
    let reply = reply(length);
    let packets: Vec<_> = cut(OWN, CBOR, &reply).collect();
    Point {
        before: packets[..done].to_vec(),
        next: done.checked_sub(1).map(|number| number as u8),
        end: (done == packets.len()).then(|| whole(&reply)),
    }
}

/// A gathering that one more packet has ended.
fn ended(mut point: Point, last: [u8; PACKET], code: u8) -> Point {
    point.before.push(last);
    point.end = Some(format!("ended {code:02x}"));
    point
}

fn points() -> Vec<Point> {
    vec![
        after(117, 0),
        after(117, 1),
        after(117, 2),
        after(7_609, 1),
        after(0, 1),
        after(57, 1),
        after(117, 3),
        ended(after(0, 0), opening(OWN, ERROR, 1), 0x5A),
        ended(after(0, 0), opening(OWN, PING, 1), 0x01),
        ended(after(0, 0), opening(OWN, CBOR, 7_610), 0x03),
        ended(after(117, 1), opening(OWN, CBOR, 117), 0x04),
        ended(after(117, 1), continuation(OWN, 1), 0x04),
    ]
}

/// An opening packet whose payload is 5A all over.
fn opening(channel: Channel, command: u8, length: u16) -> [u8; PACKET] {
    let mut packet = [0x5A; PACKET];
    packet[..4].copy_from_slice(&channel.0.to_be_bytes());
    packet[4] = 0x80 | command;
    packet[5..7].copy_from_slice(&length.to_be_bytes());
    packet
}

fn continuation(channel: Channel, number: u8) -> [u8; PACKET] {
    let mut packet = [0x5A; PACKET];
    packet[..4].copy_from_slice(&channel.0.to_be_bytes());
    packet[4] = number;
    packet
}

/// What an opening of the own channel gets.
fn answer_to_opening(point: &Point, command: u8, length: u16) -> String {
    let code = match (&point.end, point.next) {
        (Some(end), _) => return end.clone(),
        _ if command == ERROR => 0x5A,
        (None, Some(_)) => 0x04,
        _ if command != CBOR => 0x01,
        _ if length > 7_609 => 0x03,
        _ if length > 57 => return "more".to_string(),
        _ => return whole(&[0x5A; 57][..usize::from(length)]),
    };
    format!("ended {code:02x}")
}

/// What a continuation of the own channel gets, where it does not complete the reply.
fn answer_to_continuation(point: &Point, number: u8) -> String {
    match (&point.end, point.next) {
        (Some(end), _) => end.clone(),
        (None, Some(next)) if number != next => "ended 04".to_string(),
        _ => "more".to_string(),
    }
}

/// Awaits a reply and brings its gathering to a point. The last answer on the way is known.
fn bring(cases: &mut Cases, point: &Point) {
    cases.push(format!("await {} {CBOR}", OWN.0), "");
    for (index, packet) in point.before.iter().enumerate() {
        let is_last = index + 1 == point.before.len();
        let answer = match &point.end {
            Some(end) if is_last => end,
            _ => "more",
        };
        cases.push(line(packet), answer);
    }
}

fn line(packet: &[u8]) -> String {
    format!("packet {}", hex(packet)).trim_end().to_string()
}

/// What a packet of another channel gets.
fn unchanged(point: &Point) -> String {
    point.end.clone().unwrap_or("more".to_string())
}

#[test]
fn every_opening_at_every_point() {
    let mut cases = Cases::default();
    for point in points() {
        for command in 0..=0x7F {
            for length in [0, 1, 57, 58, 7_609, 7_610, 65_535] {
                bring(&mut cases, &point);
                let answer = answer_to_opening(&point, command, length);
                cases.push(line(&opening(OWN, command, length)), &*answer);
                // Once ended it stays so.
                if answer != "more" {
                    cases.push(line(&opening(OWN, ERROR, 1)), &*answer);
                    cases.push(line(&continuation(OWN, 0)), answer);
                }
            }
        }
    }
    hold(cases);
}

#[test]
fn every_continuation_at_every_point() {
    let mut cases = Cases::default();
    let deep = [65, 66, 127, 128].map(|done| after(LONGEST, done));
    for point in points().into_iter().chain(deep) {
        for number in 0..=0x7F {
            let completes = [2, 128].contains(&point.before.len()) && point.end.is_none();
            if completes && point.next == Some(number) {
                continue;
            }
            bring(&mut cases, &point);
            let answer = answer_to_continuation(&point, number);
            cases.push(line(&continuation(OWN, number)), answer);
        }
    }
    hold(cases);
}

#[test]
fn other_channels_change_nothing() {
    let mut cases = Cases::default();
    for point in points() {
        for channel in OTHERS {
            bring(&mut cases, &point);
            for command in [CBOR, ERROR, PING, MSG] {
                for length in [0, 1, 117, 7_610] {
                    let packet = opening(channel, command, length);
                    cases.push(line(&packet), unchanged(&point));
                }
            }
            for number in [0, 1, 2, 127] {
                cases.push(line(&continuation(channel, number)), unchanged(&point));
            }
        }
    }
    hold(cases);
}

#[test]
fn every_size_of_a_packet() {
    let mut cases = Cases::default();
    for point in points() {
        bring(&mut cases, &point);
        let error = [&opening(OWN, ERROR, 1)[..], &[0x5A; 64]].concat();
        for size in (0..=128).filter(|&size| size != PACKET) {
            cases.push(line(&error[..size]), "refused 1");
        }
        cases.push(line(&opening(OTHERS[0], CBOR, 1)), unchanged(&point));
    }
    hold(cases);
}

#[test]
fn every_code_of_an_error() {
    let mut cases = Cases::default();
    for point in [after(117, 0), after(117, 1), after(117, 2)] {
        for code in 0..=0xFF {
            for length in [0, 1, 2, 7_610] {
                bring(&mut cases, &point);
                // The bytes before and behind the code are others.
                let mut packet = opening(OWN, ERROR, length);
                packet[7] = code;
                cases.push(line(&packet), format!("ended {code:02x}"));
            }
        }
    }
    hold(cases);
}

#[test]
fn an_error_is_never_awaited() {
    let mut cases = Cases::default();
    cases.push(format!("await {} {ERROR}", OWN.0), "");
    cases.push(line(&opening(OWN, ERROR, 1)), "ended 5a");
    cases.push(format!("await {} {ERROR}", OWN.0), "");
    cases.push(line(&opening(OWN, CBOR, 1)), "ended 01");
    hold(cases);
}

/// The packets of a reply with others between them; what the reply leaves unused is random.
fn mixed(random: &mut Random, cases: &mut Cases, channel: Channel, command: u8, reply: &[u8]) {
    cases.push(format!("await {} {command}", channel.0), "");
    cases.push(line(&continuation(channel, 0)), "more");
    let mut packets = cut(channel, command, reply).peekable();
    let mut left = reply.len();
    let mut header = 7;
    while let Some(mut packet) = packets.next() {
        for _ in 0..random.below(3) {
            let other = Channel(channel.0 ^ 1 << random.below(32));
            let mut stranger = packet;
            stranger[..4].copy_from_slice(&other.0.to_be_bytes());
            random.fill(&mut stranger[5..]);
            cases.push(line(&stranger), "more");
        }
        let used = left.min(PACKET - header);
        random.fill(&mut packet[header + used..]);
        (left, header) = (left - used, 5);
        let answer = match packets.peek() {
            Some(_) => "more".to_string(),
            None => whole(reply),
        };
        cases.push(line(&packet), answer);
    }
    cases.push(line(&continuation(channel, 0)), whole(reply));
}

#[test]
fn every_length_of_a_reply() {
    let mut random = Random::new(seed_or(0).wrapping_add(50));
    let mut cases = Cases::default();
    let long = [1_000, 4_000, 7_549, 7_550, 7_551, LONGEST - 1, LONGEST];
    for length in (0..=360).chain(long) {
        let reply = random.bytes(length);
        let channel = Channel(random.number() as u32);
        let command = random.below(ERROR.into()) as u8;
        mixed(&mut random, &mut cases, channel, command, &reply);
    }
    hold(cases);
}

#[test]
fn a_gathering_begins_anew() {
    let mut cases = Cases::default();
    for point in points() {
        bring(&mut cases, &point);
        // A shorter reply than the one before, and no trace of that.
        bring(&mut cases, &after(57, 1));
        cases.push(format!("await {} {PING}", OTHERS[0].0), "");
        cases.push(line(&opening(OWN, PING, 0)), "more");
        cases.push(line(&opening(OTHERS[0], PING, 0)), "whole -");
    }
    hold(cases);
}
