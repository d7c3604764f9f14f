//! `speed`: times the proved calls, out of the firmware's archive, beside the ordinary Rust version
//! of `../model`, in one process and on the same input.
//!
//! [`jobs`] are what is timed, [`job`] does one, [`agreement`] sees to it that both sides do it and
//! do it right, [`timing`] times it, and [`report`] prints what came of it.

use std::env;
use std::process::ExitCode;

use model::archive::ARCHIVE;
use model::firmware::{Calls, MODEL};

use crate::copies::COPIES;
use crate::job::Job;
use crate::report::{Report, TimedCopy, TimedJob};
use crate::spread::Spread;
use crate::table::grouped;

mod agreement;
mod commands;
mod copies;
mod job;
mod jobs;
mod machine;
mod report;
mod spread;
mod table;
mod timing;

const USAGE: &str = "usage: speed [ROUNDS [WORD]], as `speed`, `speed 300` or `speed 300 fetched`";

/// Rounds of each side, unless another number is asked for: all jobs take half a minute.
const ROUNDS: usize = 2_000;

/// The proved side, and the ordinary one.
const SIDES: [Calls; 2] = [ARCHIVE, MODEL];

fn main() -> ExitCode {
    let arguments: Vec<String> = env::args().skip(1).collect();
    let Some(asked) = Asked::read(&arguments) else {
        eprintln!("{USAGE}");
        return ExitCode::from(2);
    };
    match asked.run() {
        Ok(report) => {
            println!("Machine: {}", machine::name());
            println!("Rounds: {} of each side, in turns", grouped(asked.rounds));
            report.print();
            ExitCode::SUCCESS
        }
        Err(wrong) => {
            eprintln!("speed: {wrong}");
            ExitCode::FAILURE
        }
    }
}

/// What the arguments ask for.
#[derive(Debug, PartialEq, Eq)]
struct Asked {
    rounds: usize,
    /// What the names of jobs and copies must have in them.
    word: String,
}

impl Asked {
    fn read(arguments: &[String]) -> Option<Self> {
        let (rounds, word) = match arguments {
            [] => (ROUNDS, ""),
            [rounds] => (rounds.parse().ok()?, ""),
            [rounds, word] => (rounds.parse().ok()?, word.as_str()),
            _ => return None,
        };
        let word = word.to_string();
        (rounds > 0).then_some(Asked { rounds, word })
    }

    /// Checks all jobs that are asked for, and then times them.
    fn run(&self) -> Result<Report, String> {
        let jobs = jobs::all();
        let names: Vec<&str> = jobs.iter().map(|job| job.name.as_str()).collect();
        let names = [names, COPIES.map(|copy| copy.name).to_vec()].concat();
        if !names.iter().any(|name| self.asks_for(name)) {
            let names = names.join("\n    ");
            return Err(format!("no name has {:?} in it:\n    {names}", self.word));
        }
        let jobs: Vec<Job> = jobs
            .into_iter()
            .filter(|job| self.asks_for(&job.name))
            .collect();
        for job in &jobs {
            agreement::check(job, &SIDES).map_err(|wrong| format!("{}: {wrong}", job.name))?;
        }
        eprintln!("speed: both sides agree on {} jobs", jobs.len());
        Ok(self.timed(jobs))
    }

    fn asks_for(&self, name: &str) -> bool {
        name.contains(&self.word)
    }

    fn timed(&self, jobs: Vec<Job>) -> Report {
        let mut report = Report::default();
        for job in jobs {
            eprintln!("speed: timing {}", job.name);
            let times = timing::job(&job, &SIDES, self.rounds);
            let calls = job.expected.steps.len();
            report.jobs.push(TimedJob::new(job.name, calls, times));
        }
        for copy in COPIES.iter().filter(|copy| self.asks_for(copy.name)) {
            eprintln!("speed: timing {}", copy.name);
            let times = timing::copy(copy.copy, self.rounds);
            report.copies.push(TimedCopy {
                name: copy.name,
                times: Spread::of(times),
            });
        }
        report
    }
}

#[cfg(test)]
mod tests {
    use super::*;

    fn read(arguments: &[&str]) -> Option<Asked> {
        let arguments: Vec<String> = arguments.iter().map(ToString::to_string).collect();
        Asked::read(&arguments)
    }

    fn asked(rounds: usize, word: &str) -> Option<Asked> {
        let word = word.to_string();
        Some(Asked { rounds, word })
    }

    #[test]
    fn arguments() {
        assert_eq!(read(&[]), asked(ROUNDS, ""));
        assert_eq!(read(&["1"]), asked(1, ""));
        assert_eq!(read(&["300", "fetched"]), asked(300, "fetched"));
        for bad in [&["0"][..], &["-1"], &["many"], &["1", "a", "b"]] {
            assert_eq!(read(bad), None, "{bad:?}");
        }
    }

    #[test]
    fn a_word_that_no_name_has() {
        let told = read(&["1", "no such job"]).and_then(|asked| asked.run().err());
        let told = told.expect("no report");
        assert!(told.contains("PING of 7,609 bytes gathered"), "{told}");
    }
}
