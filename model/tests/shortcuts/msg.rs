//! Other rules for MSG.

use model::bench::Bench;
use model::key::{Key, Message, Transaction, MOST_CHANNELS};
use model::line::{self, Line};
use model::packet::{Channel, Packet, CANCEL, INIT, MSG};
use model::pipe::OnPipe;

use super::{caught, packet_of, reply_instead, SHORT};

/// The channel, command and length of a line's packet, where it opens a message.
fn opening_of(line: &str) -> Option<(Channel, u8, u16)> {
    match Packet::read(&packet_of(line)?) {
        Packet::Opening(opening) => Some((opening.channel, opening.command, opening.length)),
        Packet::Continuation(_) => None,
    }
}

/// The message of a MSG that waits in a state that is in order.
fn waiting_msg(key: &Key) -> Option<Message> {
    match key.transaction {
        Transaction::Waiting { message } if message.command == MSG && key.is_in_order() => {
            Some(message)
        }
        _ => None,
    }
}

/// Makes these bytes the reply to a MSG.
fn answer_with(bench: &mut Bench, message: Message, bytes: &[u8]) {
    bench.message[..bytes.len()].copy_from_slice(bytes);
    let length = bytes.len() as u16;
    bench.key.transaction = Transaction::Answering {
        message: Message { length, ..message },
        done: 0,
    };
}

#[test]
fn saying_in_init_that_there_is_no_msg() {
    let difference = caught(|bench, line, out| {
        let start = out.len();
        bench.line(line.as_bytes(), out);
        let is_init = matches!(opening_of(line), Some((_, INIT, _)));
        if is_init && out[start..].starts_with(b"ok reply") && bench.reply[4] == 0x86 {
            bench.reply[23] = 0x0C;
            reply_instead(bench, start, out);
        }
    });
    assert!(difference.lines.len() <= 2, "{difference}");
}

#[test]
fn not_knowing_msg() {
    let difference = caught(|bench, line, out| match packet_of(line) {
        Some(mut packet) if packet[4] == 0x80 | MSG => {
            // MSG gets what a command gets that is known to nobody.
            packet[4] += 1;
            let mut taken = b"packet ".to_vec();
            line::encode(&packet, &mut taken);
            bench.line(&taken, out);
        }
        _ => bench.line(line.as_bytes(), out),
    });
    assert_eq!(difference.lines.len(), 2, "{difference}");
}

#[test]
fn opening_a_msg_of_no_bytes() {
    let difference = caught(|bench, line, out| {
        let (before, start) = (bench.key, out.len());
        bench.line(line.as_bytes(), out);
        let is_idle = before.transaction == Transaction::Idle;
        if let (true, Some((holder, MSG, 0))) = (is_idle, opening_of(line)) {
            if bench.reply[4..8] == [0xBF, 0, 1, 0x03] && out[start..].starts_with(b"ok reply") {
                out.truncate(start);
                out.extend_from_slice(b"ok\n");
                let message = Message {
                    holder,
                    command: MSG,
                    length: 0,
                };
                answer_with(bench, message, &[0x67, 0x00]);
            }
        }
    });
    assert_eq!(difference.lines.len(), 2, "{difference}");
}

#[test]
fn taking_a_delivery_of_one_byte_for_msg() {
    let difference = caught(|bench, line, out| {
        let (before, start) = (bench.key, out.len());
        bench.line(line.as_bytes(), out);
        if let (Some(message), Some(Line::Deliver(_, bytes))) =
            (waiting_msg(&before), line::read(line.as_bytes()))
        {
            if bytes.len() == 1 && out[start..] == *b"refused 6\n" {
                out.truncate(start);
                out.extend_from_slice(b"ok\n");
                answer_with(bench, message, &bytes);
            }
        }
    });
    assert_eq!(difference.lines.len(), 2, "{difference}");
}

#[test]
fn answering_or_dropping_a_msg_at_cancel() {
    let cancelled: [&[u8]; 3] = [&[0x2D], &[0x6F, 0x00], &[]];
    for status in cancelled {
        let difference = caught(|bench, line, out| {
            let (before, start) = (bench.key, out.len());
            bench.line(line.as_bytes(), out);
            if let (Some(message), Some((channel, CANCEL, _))) =
                (waiting_msg(&before), opening_of(line))
            {
                if message.holder == channel && out[start..] == *b"ok\n" {
                    answer_with(bench, message, status);
                    if status.is_empty() {
                        bench.key.transaction = Transaction::Idle;
                    }
                }
            }
        });
        assert!(
            difference.lines.len() <= SHORT,
            "{status:02x?}: {difference}"
        );
    }
}

#[test]
fn turning_away_a_msg_that_waits() {
    let difference = caught(|bench, line, out| {
        let is_call = ["packet", "time", "deliver", "fetch"]
            .iter()
            .any(|word| line.starts_with(word));
        let before = bench.key;
        if is_call && waiting_msg(&before).is_some() {
            bench.key.channels = MOST_CHANNELS + 1;
        }
        bench.line(line.as_bytes(), out);
        if bench.key.channels > MOST_CHANNELS {
            bench.key.channels = before.channels;
        }
    });
    assert!(difference.lines.len() <= SHORT, "{difference}");
}

/// What is written for the two bytes of a status.
type Written = fn([u8; 2]) -> Vec<u8>;

#[test]
fn writing_our_own_status_otherwise() {
    let ways: [(&str, Written); 4] = [
        ("the low byte first", |[high, low]| vec![low, high]),
        ("one byte", |[high, _]| vec![high]),
        ("a byte before it", |[high, low]| vec![0, high, low]),
        ("no byte", |_| vec![]),
    ];
    for (name, written) in ways {
        let difference = caught(|bench, line, out| {
            let was_answering = matches!(bench.key.transaction, Transaction::Answering { .. });
            bench.line(line.as_bytes(), out);
            match bench.key.transaction {
                Transaction::Answering { message, .. }
                    if message.command == MSG && !was_answering && line.starts_with("packet") =>
                {
                    let [high, low, ..] = *bench.message;
                    answer_with(bench, message, &written([high, low]));
                }
                _ => {}
            }
        });
        assert!(difference.lines.len() <= SHORT, "{name}: {difference}");
    }
}
