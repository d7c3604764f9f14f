//! What the events of a viewer's script reach.

use crate::packet::{packets_needed, Packet, ERROR, LONGEST, PACKET};
use crate::viewer::gathering::{Gathering, Progress};
use crate::viewer::line::Line;

/// The case of a line that met this much room and this gathering, and got this answer; none where
/// the line is no event.
pub fn case(
    room: usize,
    gathering: Option<Gathering>,
    line: &Line,
    answer: &str,
) -> Option<String> {
    let case = match line {
        Line::Make(parts) => format!("make{}", size_of_command(room, &parts[..])),
        Line::Get(parts) => format!("get{}", size_of_command(room, &parts[..])),
        Line::Cut(_, _, request) => size_of_request(request.len()),
        Line::Packet(packet) => packet_case(gathering, packet),
        Line::Apart(reply) => format!("apart{}", size_of_reply(reply.len())),
        Line::Walk(reply) => format!("walk{}", size_of_reply(reply.len())),
        Line::Nothing | Line::Room(_) | Line::Await(..) => return None,
    };
    Some(format!("{case}: {}", kind_of_answer(answer)))
}

/// How the command of these parts goes with the longest message and the room.
fn size_of_command(room: usize, parts: &[Option<Vec<u8>>]) -> &'static str {
    let sizes = parts.iter().flatten().map(|part| 1 + part.len());
    let size = 2 + sizes.sum::<usize>();
    match size {
        2 => " of no parts",
        LONGEST if room >= LONGEST => " of 7609",
        _ if size > LONGEST && size <= room => " over 7609 in its room",
        _ if size > LONGEST => " over 7609",
        _ if size == room + 1 => " over the room by one",
        _ if size > room => " over the room",
        _ if size == room => " as long as the room",
        _ => "",
    }
}

fn size_of_request(length: usize) -> String {
    match length {
        0 => "cut of none".to_string(),
        LONGEST => "cut of 7609".to_string(),
        7_610 => "cut of 7610".to_string(),
        _ if length > LONGEST => "cut of more".to_string(),
        _ => match packets_needed(length) {
            packets @ 1..=3 => format!("cut in {packets}"),
            _ => "cut in more".to_string(),
        },
    }
}

fn size_of_reply(length: usize) -> &'static str {
    match length {
        0 => " of none",
        1 => " of a status",
        LONGEST => " of 7609",
        7_610 => " of 7610",
        _ => "",
    }
}

/// How far the reply was gathered, who sent what, and what of it was not as expected.
fn packet_case(gathering: Option<Gathering>, packet: &[u8]) -> String {
    let Some(gathering) = gathering else {
        return "packet before any gathering".to_string();
    };
    let phase = match gathering.progress() {
        Progress::Awaited => "awaited",
        Progress::Begun { .. } => "begun",
        Progress::Whole { .. } => "whole",
        Progress::Ended(_) => "ended",
    };
    let Ok(packet) = <&[u8; PACKET]>::try_from(packet) else {
        return format!("{phase} packet of another size");
    };
    let (channel, what) = match Packet::read(packet) {
        Packet::Opening(opening) => {
            let long = if usize::from(opening.length) > LONGEST {
                " over 7609"
            } else {
                ""
            };
            let what = match opening.command {
                ERROR => "error",
                command if command == gathering.command() => "opening",
                _ => "opening of another command",
            };
            (opening.channel, format!("{what}{long}"))
        }
        Packet::Continuation(next) => {
            let is_expected = match gathering.progress() {
                Progress::Begun { done, .. } => usize::from(next.number) + 1 == done,
                _ => true,
            };
            let what = if is_expected {
                "continuation"
            } else {
                "wrong continuation"
            };
            (next.channel, what.to_string())
        }
    };
    let who = if channel == gathering.channel() {
        "own"
    } else {
        "another's"
    };
    format!("{phase} {who} {what}")
}

/// The answer without what differs from case to case.
fn kind_of_answer(answer: &str) -> String {
    let last = answer.rsplit('\n').next().unwrap_or_default();
    let words: Vec<&str> = last.split(' ').collect();
    match words[..] {
        ["bytes" | "packet" | "whole", _] => words[0].to_string(),
        ["status", _] => "status".to_string(),
        ["status", _, "map", ..] => "map".to_string(),
        ["ended", "01" | "03" | "04"] => last.to_string(),
        ["ended", _] => "ended with a code".to_string(),
        ["?", ..] => "no line".to_string(),
        _ => last.to_string(),
    }
}
