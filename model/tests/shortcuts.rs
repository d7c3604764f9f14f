//! The scripts catch the shortcuts that document 01 has seen and other rules for the channels, for
//! MSG and for APDUs, and shorten to a script that tells what is wrong. Each is the model with one
//! line's handling changed.

#[path = "shortcuts/apdus.rs"]
mod apdus;
#[path = "shortcuts/msg.rs"]
mod msg;

use model::bench::Bench;
use model::key::{Transaction, MOST_CHANNELS};
use model::line::{self, Line};
use model::packet::{part_carried, Packet, BROADCAST, INIT, PACKET};
use model::pipe::OnPipe;
use model::trial::program::Outcome;
use model::trial::run::{compare, Difference, Done, Enough};

/// The most lines a shortened script can have and still tell what is wrong.
const SHORT: usize = 6;

/// Compares the model with a key that answers lines as `answer` does.
fn compared(
    answer: impl Fn(&mut Bench, &str, &mut Vec<u8>) + Sync,
) -> Result<Done, Box<Difference>> {
    let subject = |lines: &[String]| {
        let mut bench = Bench::default();
        let mut outcome = Outcome::default();
        for line in lines {
            answer(&mut bench, line, &mut outcome.answers);
        }
        outcome
    };
    compare(&subject, 1, Enough::Events(200_000), &|_| {})
}

/// The difference between the model and a key that answers lines as `answer` does.
fn caught(answer: impl Fn(&mut Bench, &str, &mut Vec<u8>) + Sync) -> Difference {
    *compared(answer).expect_err("no script catches it")
}

/// The packet of a line, where it has the size of one.
fn packet_of(line: &str) -> Option<[u8; PACKET]> {
    match line::read(line.as_bytes()) {
        Some(Line::Packet(bytes)) => bytes.try_into().ok(),
        _ => None,
    }
}

/// Puts the reply buffer's packet in the place of the answer that begins at `start`.
fn reply_instead(bench: &Bench, start: usize, out: &mut Vec<u8>) {
    out.truncate(start);
    out.extend_from_slice(b"ok reply ");
    line::encode(&bench.reply[..PACKET], out);
    out.push(b'\n');
}

#[test]
fn storing_a_payload_before_the_channel_is_compared() {
    let difference = caught(|bench, line, out| {
        if let (Some(packet), Transaction::Gathering { message, done, .. }) =
            (packet_of(line), bench.key.transaction)
        {
            if let Packet::Continuation(next) = Packet::read(&packet) {
                if bench.key.is_in_order() && u16::from(next.number) + 1 == done {
                    let part = part_carried(usize::from(done), usize::from(message.length));
                    let taken = &next.payload[..part.len()];
                    bench.message[part].copy_from_slice(taken);
                }
            }
        }
        bench.line(line.as_bytes(), out);
    });
    assert!(difference.lines.len() <= SHORT, "{difference}");
}

#[test]
fn restarting_the_time_at_each_continuation() {
    let difference = caught(|bench, line, out| {
        let before = bench.key.transaction;
        bench.line(line.as_bytes(), out);
        if let (
            Transaction::Gathering { done: before, .. },
            Transaction::Gathering { done, left, .. },
        ) = (before, &mut bench.key.transaction)
        {
            if before < *done && line.starts_with("packet") {
                *left = 3_000;
            }
        }
    });
    assert!(difference.lines.len() <= SHORT, "{difference}");
}

#[test]
fn taking_a_late_delivery_for_the_next_request() {
    let difference = caught(|bench, line, out| match line::read(line.as_bytes()) {
        Some(Line::Deliver(_, bytes)) => {
            let mut taken = format!("deliver {} ", bench.key.ticket.0).into_bytes();
            line::encode(&bytes, &mut taken);
            bench.line(taken.trim_ascii_end(), out);
        }
        _ => bench.line(line.as_bytes(), out),
    });
    assert!(difference.lines.len() <= SHORT, "{difference}");
}

#[test]
fn sending_old_buffer_bytes_as_padding() {
    let difference = caught(|bench, line, out| {
        let (before, start) = (bench.key.transaction, out.len());
        bench.line(line.as_bytes(), out);
        if let (Transaction::Answering { message, done }, "fetch") = (before, line) {
            if out[start..].starts_with(b"ok reply") {
                let part = part_carried(usize::from(done), usize::from(message.length));
                let header = if done == 0 { 7 } else { 5 };
                let padding = header + part.len()..PACKET;
                let old = &bench.message[part.end..][..padding.len()];
                bench.reply[padding].copy_from_slice(old);
                reply_instead(bench, start, out);
            }
        }
    });
    assert!(difference.lines.len() <= SHORT, "{difference}");
}

#[test]
fn judging_an_algorithm_by_its_low_byte() {
    let difference = caught(|bench, line, out| {
        let start = out.len();
        bench.line(line.as_bytes(), out);
        let alg_249 = b"\x63alg\x18\xF9";
        if let Some(Line::Check(message)) = line::read(line.as_bytes()) {
            let has_it = message.windows(alg_249.len()).any(|part| part == alg_249);
            if has_it && out[start..].starts_with(b"status 26 at ") {
                out.truncate(start);
                out.extend_from_slice(b"good\n");
            }
        }
    });
    assert_eq!(difference.lines.len(), 1, "{difference}");
}

/// The channel that comes after so many; none where error 0x7F does.
type Next = fn(u32) -> Option<u32>;

/// Compares the model with a key that gives channels by this rule.
fn caught_giving(next: Next) -> Difference {
    caught(|bench, line, out| {
        let is_greeting = packet_of(line).is_some_and(|packet| match Packet::read(&packet) {
            Packet::Opening(opening) => {
                opening.channel == BROADCAST && opening.command == INIT && opening.length == 8
            }
            Packet::Continuation(_) => false,
        });
        if !is_greeting || !bench.key.is_in_order() {
            return bench.line(line.as_bytes(), out);
        }
        let (before, start) = (bench.key, out.len());
        let given = next(before.channels);
        // What a broadcast INIT gets does not hang on the transaction, whose holder may be the last.
        bench.key.transaction = Transaction::Idle;
        bench.key.channels = MOST_CHANNELS - u32::from(given.is_some());
        bench.line(line.as_bytes(), out);
        bench.key = before;
        if let (Some(given), b"ok") = (given, &out[start..start + 2]) {
            bench.key.channels = given;
            bench.reply[15..19].copy_from_slice(&given.to_be_bytes());
            reply_instead(bench, start, out);
        }
    })
}

#[test]
fn giving_channels_by_another_rule() {
    let rules: [(&str, Next); 6] = [
        ("error 0x7F comes at 65,535 too", |given| {
            (given != 65_535 && given != MOST_CHANNELS).then_some(given + 1)
        }),
        ("16 bits are kept", |given| {
            Some(u32::from((given as u16).wrapping_add(1)))
        }),
        ("the last is not given", |given| {
            (given < MOST_CHANNELS - 1).then_some(given + 1)
        }),
        ("broadcast is given", |given| Some(given + 1)),
        ("the last is given again", |given| {
            Some(MOST_CHANNELS.min(given + 1))
        }),
        ("1 comes after the last", |given| {
            Some(given % MOST_CHANNELS + 1)
        }),
    ];
    for (name, next) in rules {
        let difference = caught_giving(next);
        assert_eq!(difference.lines.len(), 2, "{name}: {difference}");
    }
}

#[test]
fn turning_away_over_another_count() {
    for most in [65_535, MOST_CHANNELS - 1, MOST_CHANNELS + 1] {
        let difference = caught(|bench, line, out| {
            let is_call = ["packet", "time", "deliver", "fetch"]
                .iter()
                .any(|word| line.starts_with(word));
            if !is_call {
                return bench.line(line.as_bytes(), out);
            }
            // The model takes this count as such a key takes its own.
            let before = bench.key.channels;
            let taken = if before > most {
                MOST_CHANNELS + 1
            } else {
                before.min(MOST_CHANNELS)
            };
            bench.key.channels = taken;
            bench.line(line.as_bytes(), out);
            bench.key.channels = bench.key.channels - taken + before;
        });
        assert_eq!(difference.lines.len(), 2, "{most}: {difference}");
    }
}

#[test]
fn knowing_broadcast_once_every_channel_is_given() {
    let difference = caught(|bench, line, out| match packet_of(line) {
        Some(mut packet) if packet[..4] == [0xFF; 4] && bench.key.channels == MOST_CHANNELS => {
            // Broadcast gets what the last channel would get.
            let start = out.len();
            packet[3] = 0xFE;
            let mut taken = b"packet ".to_vec();
            line::encode(&packet, &mut taken);
            bench.line(&taken, out);
            if out[start..].starts_with(b"ok reply") {
                bench.reply[3] = 0xFF;
                reply_instead(bench, start, out);
            }
        }
        _ => bench.line(line.as_bytes(), out),
    });
    assert_eq!(difference.lines.len(), 2, "{difference}");
}
