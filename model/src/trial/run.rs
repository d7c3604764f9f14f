//! Runs scripts through the model and another program, and compares every answer.

use std::env;
use std::fmt;
use std::sync::atomic::{AtomicU64, Ordering};
use std::sync::Mutex;
use std::thread;
use std::time::{Duration, Instant, SystemTime};

use super::program::Outcome;
use super::script::Script;
use super::shrink;
use super::tally::Tally;
use super::writer::{events_of, write_script};
use crate::bench::Bench;
use crate::pipe::OnPipe;

/// How many bytes of an answer a report shows before and after a difference.
const SHOWN_BEFORE: usize = 100;
const SHOWN_AFTER: usize = 200;

/// What is compared with the model.
pub type Subject<'a> = dyn Fn(&[String]) -> Outcome + Sync + 'a;

/// The seed in `SEED`, or else this one.
pub fn seed_or(default: u64) -> u64 {
    match env::var("SEED") {
        Ok(seed) => seed
            .parse()
            .unwrap_or_else(|_| panic!("SEED is {seed:?}, which is no number")),
        Err(_) => default,
    }
}

/// The seed in `SEED`, or else one of the clock.
pub fn seed_or_any() -> u64 {
    let since_1970 = SystemTime::now().duration_since(SystemTime::UNIX_EPOCH);
    seed_or(since_1970.map_or(0, |time| time.as_millis() as u64))
}

/// When a run has done enough.
#[derive(Clone, Copy, Debug)]
pub enum Enough {
    Events(u64),
    Time(Duration),
}

impl Enough {
    /// Reads a count of events, or a time in seconds, as `600s`.
    pub fn read(word: &str) -> Option<Enough> {
        match word.strip_suffix('s') {
            Some(seconds) => seconds
                .parse()
                .ok()
                .map(Duration::from_secs)
                .map(Enough::Time),
            None => word.parse().ok().map(Enough::Events),
        }
    }

    /// Whether a run with this many events, that began then, has done enough.
    pub fn is_reached(self, events: u64, begin: Instant) -> bool {
        match self {
            Enough::Events(enough) => events >= enough,
            Enough::Time(time) => begin.elapsed() >= time,
        }
    }
}

/// How far a run has come.
#[derive(Clone, Debug, Default)]
pub struct Done {
    pub scripts: u64,
    pub events: u64,
    pub tally: Tally,
}

/// Two programs that do not agree.
#[derive(Clone, Debug)]
pub struct Difference {
    /// The seed whose first script shows it, where it was a random one.
    pub seed: Option<u64>,
    pub lines: Vec<String>,
    pub model: String,
    pub program: String,
}

impl fmt::Display for Difference {
    fn fmt(&self, f: &mut fmt::Formatter) -> fmt::Result {
        match self.seed {
            Some(seed) => writeln!(f, "the program and the model differ (SEED={seed})")?,
            None => writeln!(f, "the program and the model differ")?,
        }
        writeln!(f, "the shortest script that was found to show it:")?;
        for line in &self.lines {
            writeln!(f, "    {line}")?;
        }
        writeln!(f, "to its last line the model answers\n    {}", self.model)?;
        write!(f, "and the program\n    {}", self.program)
    }
}

/// Writes the script of a seed, with the model's answers, and says what its events reach.
pub type Write<'a> = dyn Fn(u64) -> (Script, Tally) + Sync + 'a;

/// Compares a key with the model on the scripts of one seed after another.
pub fn compare(
    subject: &Subject,
    seed: u64,
    enough: Enough,
    progress: &(dyn Fn(&Done) + Sync),
) -> Result<Done, Box<Difference>> {
    let write = |seed| write_script(seed, events_of(seed));
    compare_scripts::<Bench>(subject, &write, seed, enough, progress)
}

/// Runs the scripts of one seed after another until it is enough, and tells `progress` after each.
/// The scripts are spread over the processors; of the differences found, the first seed's is
/// reported, so that the same seed always gives the same report.
pub fn compare_scripts<Model: OnPipe>(
    subject: &Subject,
    write: &Write,
    seed: u64,
    enough: Enough,
    progress: &(dyn Fn(&Done) + Sync),
) -> Result<Done, Box<Difference>> {
    let begin = Instant::now();
    let next = AtomicU64::new(0);
    let state = Mutex::new((Done::default(), None::<(u64, Vec<String>)>));
    let workers = thread::available_parallelism().map_or(1, usize::from);
    let seed_of = |number| seed.wrapping_add(number);
    let work = || loop {
        let number = next.fetch_add(1, Ordering::Relaxed);
        let seed = seed_of(number);
        let (script, tally) = write(seed);
        let differs = first_difference(&script, &subject(&script.lines)).is_some();
        let mut state = state.lock().unwrap_or_else(|broken| broken.into_inner());
        let (done, differing) = &mut *state;
        let is_first = differing.as_ref().is_none_or(|(first, _)| number < *first);
        if differs && is_first {
            *differing = Some((number, script.lines));
        }
        if differing.is_some() {
            return;
        }
        done.scripts += 1;
        done.events += tally.0.values().sum::<u64>();
        done.tally.add(tally);
        progress(done);
        if enough.is_reached(done.events, begin) {
            return;
        }
    };
    thread::scope(|scope| {
        for _ in 0..workers {
            scope.spawn(work);
        }
    });
    let (done, differing) = state
        .into_inner()
        .unwrap_or_else(|broken| broken.into_inner());
    match differing {
        None => Ok(done),
        Some((number, lines)) => {
            let seed = Some(seed_of(number));
            Err(Box::new(shortest_difference::<Model>(subject, seed, lines)))
        }
    }
}

/// Compares the answers to one script of these lines.
pub fn compare_lines<Model: OnPipe>(
    subject: &Subject,
    lines: Vec<String>,
) -> Result<(), Box<Difference>> {
    let script = Script::answered::<Model>(lines);
    match first_difference(&script, &subject(&script.lines)) {
        None => Ok(()),
        Some(_) => Err(Box::new(shortest_difference::<Model>(
            subject,
            None,
            script.lines,
        ))),
    }
}

/// A difference between what the model answers to a script and an outcome.
struct Found {
    line: usize,
    model: String,
    program: String,
}

fn first_difference(script: &Script, outcome: &Outcome) -> Option<Found> {
    let (model, program) = (&script.answers, &outcome.answers);
    if model == program && outcome.bad_end.is_none() {
        return None;
    }
    let at = model
        .iter()
        .zip(program)
        .position(|(one, other)| one != other)
        .unwrap_or(model.len().min(program.len()));
    let mut said = around(program, at);
    if let Some(bad_end) = &outcome.bad_end {
        said = format!("{said} ({bad_end})");
    }
    Some(Found {
        line: script.line_of(at),
        model: around(model, at),
        program: said,
    })
}

/// The line of the answers that has the byte `at`, cut around it where it is long.
fn around(answers: &[u8], at: usize) -> String {
    let (before, after) = answers.split_at(at);
    let start = before.iter().rposition(|&byte| byte == b'\n');
    let before = &before[start.map_or(0, |end| end + 1)..];
    let end = after.iter().position(|&byte| byte == b'\n');
    let after = &after[..end.unwrap_or(after.len())];
    let mut line = String::new();
    if before.len() > SHOWN_BEFORE {
        line.push_str(&format!("(from byte {}) ", before.len() - SHOWN_BEFORE));
    }
    let shown = [
        &before[before.len().saturating_sub(SHOWN_BEFORE)..],
        &after[..after.len().min(SHOWN_AFTER)],
    ];
    line.push_str(&String::from_utf8_lossy(&shown.concat()));
    if line.is_empty() {
        line.push_str("nothing");
    }
    line
}

fn shortest_difference<Model: OnPipe>(
    subject: &Subject,
    seed: Option<u64>,
    lines: Vec<String>,
) -> Difference {
    let found_in = |lines: &[String]| {
        let script = Script::answered::<Model>(lines.to_vec());
        first_difference(&script, &subject(lines))
    };
    let upto = found_in(&lines).map_or(lines.len(), |found| found.line + 1);
    let lines =
        shrink::shortest::<Model>(lines[..upto].to_vec(), |lines| found_in(lines).is_some());
    let (model, program) = match found_in(&lines) {
        Some(found) => (found.model, found.program),
        None => (
            "the same".to_string(),
            "the same, when it is run again".to_string(),
        ),
    };
    Difference {
        seed,
        lines,
        model,
        program,
    }
}
