//! The shortest script that still shows a difference, by leaving out parts (delta debugging).

use std::time::{Duration, Instant};

use crate::line;
use crate::pipe::OnPipe;

/// How long the shortening of one script can take.
const PATIENCE: Duration = Duration::from_secs(120);

/// Shortens a script as long as `shows` says that it still shows the difference: by leaving out
/// lines, by beginning at a later state, and by leaving out or zeroing bytes inside the lines that
/// are left.
pub fn shortest<Model: OnPipe>(
    lines: Vec<String>,
    mut shows: impl FnMut(&[String]) -> bool,
) -> Vec<String> {
    let begin = Instant::now();
    let mut still = |lines: &[String]| begin.elapsed() < PATIENCE && shows(lines);
    let lines = without_parts(lines, &mut still);
    let lines = from_a_later_state::<Model>(lines, &mut still);
    let mut lines = without_parts(lines, &mut still);
    for at in 0..lines.len() {
        shorten_line(&mut lines, at, &mut still);
        shorten_parts(&mut lines, at, &mut still);
    }
    lines
}

/// Leaves out runs of parts, long runs first, until no single part can be left out.
pub(super) fn without_parts<T: Clone>(
    mut parts: Vec<T>,
    mut still: impl FnMut(&[T]) -> bool,
) -> Vec<T> {
    let mut run = parts.len().div_ceil(2);
    while run > 0 {
        let mut shorter = false;
        let mut end = parts.len();
        while end > 0 {
            let start = end.saturating_sub(run);
            let fewer = [&parts[..start], &parts[end..]].concat();
            if still(&fewer) {
                parts = fewer;
                shorter = true;
            }
            end = start;
        }
        if !shorter || run > 1 {
            run /= 2;
        }
    }
    parts
}

/// Puts one line with the state they lead to in the place of as many first lines as possible.
fn from_a_later_state<Model: OnPipe>(
    lines: Vec<String>,
    mut still: impl FnMut(&[String]) -> bool,
) -> Vec<String> {
    let mut model = Model::default();
    let mut states = Vec::new();
    for line in &lines {
        model.line(line.as_bytes(), &mut Vec::new());
        states.push(model.state_line());
    }
    for (at, state) in states.into_iter().enumerate().rev() {
        let Some(state) = state else {
            continue;
        };
        let later = [&[state], &lines[at + 1..]].concat();
        if still(&later) {
            return later;
        }
    }
    lines
}

/// Shortens the bytes at the end of a line; a packet keeps its length and gets zeros.
fn shorten_line(lines: &mut [String], at: usize, mut still: impl FnMut(&[String]) -> bool) {
    let Some((words, hex)) = lines[at].rsplit_once(' ') else {
        return;
    };
    let is_packet = words == "packet";
    let is_other = ["check", "apdu", "apart", "walk"].contains(&words)
        || ["item ", "deliver ", "cut "]
            .iter()
            .any(|word| words.starts_with(word));
    let Some(bytes) = line::decode(hex).filter(|_| is_packet || is_other) else {
        return;
    };
    let words = words.to_string();
    let mut candidate = lines.to_vec();
    let mut still_with = |bytes: &[u8]| {
        candidate[at] = with_bytes(&words, bytes);
        still(&candidate)
    };
    let bytes = if is_packet {
        let places = (0..bytes.len()).filter(|&place| bytes[place] != 0);
        let kept = without_parts(places.collect(), |kept| still_with(&only(&bytes, kept)));
        only(&bytes, &kept)
    } else {
        without_parts(bytes, still_with)
    };
    lines[at] = with_bytes(&words, &bytes);
}

/// Leaves out parts of a command that is to be written, and bytes of those that are left.
fn shorten_parts(lines: &mut [String], at: usize, mut still: impl FnMut(&[String]) -> bool) {
    let mut words: Vec<String> = lines[at].split(' ').map(String::from).collect();
    let word = words.remove(0);
    if !["make", "get"].contains(&&*word) {
        return;
    }
    let mut candidate = lines.to_vec();
    let mut still_with = |parts: &[String]| {
        candidate[at] = with_parts(&word, parts);
        still(&candidate)
    };
    let mut parts = without_parts(words, &mut still_with);
    for index in 0..parts.len() {
        let part = parts[index].clone();
        let Some((key, Some(bytes))) = part
            .split_once('=')
            .map(|(key, hex)| (key, line::decode(hex)))
        else {
            continue;
        };
        let mut shorter = parts.clone();
        let bytes = without_parts(bytes, |bytes| {
            shorter[index] = format!("{key}={}", line::hex(bytes));
            still_with(&shorter)
        });
        parts[index] = format!("{key}={}", line::hex(&bytes));
    }
    lines[at] = with_parts(&word, &parts);
}

fn with_parts(word: &str, parts: &[String]) -> String {
    [&[word.to_string()], parts].concat().join(" ")
}

/// These bytes at the places kept, and zeros elsewhere.
pub(super) fn only(bytes: &[u8], kept: &[usize]) -> Vec<u8> {
    let mut zeroed = vec![0; bytes.len()];
    for &place in kept {
        zeroed[place] = bytes[place];
    }
    zeroed
}

fn with_bytes(words: &str, bytes: &[u8]) -> String {
    if bytes.is_empty() {
        return words.to_string();
    }
    let mut line = format!("{words} ").into_bytes();
    line::encode(bytes, &mut line);
    String::from_utf8_lossy(&line).into_owned()
}

#[cfg(test)]
mod tests {
    use super::*;
    use crate::bench::Bench;

    #[test]
    fn keeps_only_what_shows_the_difference() {
        let lines: Vec<String> = (0..1_000).map(|n| format!("time {n}")).collect();
        let needed = ["time 17", "time 500", "time 501"];
        let found = shortest::<Bench>(lines, |lines| {
            needed.iter().all(|line| lines.iter().any(|l| l == line))
        });
        assert_eq!(found, needed);
    }

    #[test]
    fn begins_at_a_later_state() {
        let lines = ["state 7 7 idle", "time 1", "state 8 8 idle", "fetch"];
        let found = shortest::<Bench>(lines.map(String::from).to_vec(), |lines| {
            let mut bench = Bench::default();
            for line in lines {
                bench.line(line.as_bytes(), &mut Vec::new());
            }
            bench.key.channels == 8
        });
        assert_eq!(found, ["state 8 8 idle"]);
    }

    #[test]
    fn shortens_bytes() {
        let lines = vec![
            "packet 0102030405".to_string(),
            "check 0102030405".to_string(),
        ];
        let found = shortest::<Bench>(lines, |lines| {
            lines.len() == 2 && lines[0].contains("03") && lines[1].contains("03")
        });
        assert_eq!(found, ["packet 0000030000", "check 03"]);
    }

    #[test]
    fn shortens_parts() {
        let lines = vec!["make 2=0102 8=030405 1=06".to_string()];
        let found = shortest::<Bench>(lines, |lines| {
            let has = |part| lines.iter().any(|line| line.contains(part));
            has("8=") && has("04")
        });
        assert_eq!(found, ["make 8=04"]);
    }
}
