//! What is printed: the tables, and what a reader has to know of them.

use crate::copies::IN_ONE_PIECE;
use crate::jobs::{DRAWING_NOTHING, FETCHED, GATHERED};
use crate::spread::Spread;
use crate::table::{grouped, time, Table};

const OF_THE_JOBS: &str = "\
Proved and ordinary: the median of the rounds. Ratio: proved / ordinary. Quartiles: of the ratio taken round by round.

What is cleared: message and reply buffer are filled before each round, outside the time. Within a round they are used again as they
are left, as in a firmware: nobody clears them. Inside the time are the zeros that the calls write into a packet's unused bytes, and
the block's 32 bytes, which are put back before each repetition, on both sides alike.";

const OF_THE_PAYLOADS: &str = "\
(time - 129 packets that draw nothing) / copy in one piece: what the payloads cost beyond the packets, in copies of the message.";

/// A job and its times, those of the proved side first.
pub struct TimedJob {
    pub name: String,
    pub calls: usize,
    pub medians: [f64; 2],
    /// Proved / ordinary, round by round.
    pub ratios: Spread,
}

impl TimedJob {
    /// Of the times of each round.
    pub fn new(name: String, calls: usize, [proved, ordinary]: [Vec<f64>; 2]) -> Self {
        let ratios = proved.iter().zip(&ordinary);
        TimedJob {
            name,
            calls,
            ratios: Spread::of(ratios.map(|(proved, ordinary)| proved / ordinary).collect()),
            medians: [proved, ordinary].map(|times| Spread::of(times).median),
        }
    }
}

pub struct TimedCopy {
    pub name: &'static str,
    pub times: Spread,
}

/// All that was timed. With a word to choose by, some or all of it is left out.
#[derive(Default)]
pub struct Report {
    pub jobs: Vec<TimedJob>,
    pub copies: Vec<TimedCopy>,
}

impl Report {
    /// The tables that have rows, with what is to be said of them.
    pub fn print(&self) {
        if !self.jobs.is_empty() {
            print(&self.job_table());
            println!("\n{OF_THE_JOBS}");
        }
        if !self.copies.is_empty() {
            print(&self.copy_table());
        }
        if let Some(table) = self.payload_table() {
            print(&table);
            println!("\n{OF_THE_PAYLOADS}");
        }
    }

    fn job_table(&self) -> Table {
        let heads = ["Job", "Calls", "Proved", "Ordinary", "Ratio", "Quartiles"];
        let mut table = Table::new(&heads);
        for job in &self.jobs {
            let [proved, ordinary] = job.medians;
            table.row(vec![
                job.name.clone(),
                grouped(job.calls),
                time(proved),
                time(ordinary),
                format!("{:.2}", proved / ordinary),
                format!("{:.2} to {:.2}", job.ratios.low, job.ratios.high),
            ]);
        }
        table
    }

    fn copy_table(&self) -> Table {
        let mut table = Table::new(&["Copy", "Time", "Quartiles"]);
        for copy in &self.copies {
            let Spread { low, median, high } = copy.times;
            table.row(vec![
                copy.name.to_string(),
                time(median),
                format!("{} to {}", time(low), time(high)),
            ]);
        }
        table
    }

    /// What the payloads of the longest message cost, where all was timed that it takes to tell.
    fn payload_table(&self) -> Option<Table> {
        let overhead = self.medians(DRAWING_NOTHING)?;
        let copy = self.copies.iter().find(|copy| copy.name == IN_ONE_PIECE)?;
        let mut table = Table::new(&["Payloads alone, in copies", "Proved", "Ordinary"]);
        for name in [GATHERED, FETCHED] {
            let times = self.medians(name)?;
            let alone = |side: usize| (times[side] - overhead[side]) / copy.times.median;
            let cells = [0, 1].map(|side| format!("{:.1}", alone(side)));
            table.row([&[name.to_string()], &cells[..]].concat());
        }
        Some(table)
    }

    fn medians(&self, name: &str) -> Option<[f64; 2]> {
        let job = self.jobs.iter().find(|job| job.name == name)?;
        Some(job.medians)
    }
}

fn print(table: &Table) {
    println!("\n{}", table.lines().join("\n"));
}

#[cfg(test)]
mod tests {
    use super::*;

    fn job(name: &str, times: [Vec<f64>; 2]) -> TimedJob {
        TimedJob::new(name.to_string(), 129, times)
    }

    fn copy(nanos: f64) -> TimedCopy {
        TimedCopy {
            name: IN_ONE_PIECE,
            times: Spread::of(vec![nanos]),
        }
    }

    #[test]
    fn a_ratio_and_its_quartiles() {
        let proved = vec![30.0, 20.0, 10.0];
        let ordinary = vec![10.0, 10.0, 20.0];
        let report = Report {
            jobs: vec![job("some job", [proved, ordinary])],
            copies: vec![],
        };
        assert_eq!(
            report.job_table().lines()[2],
            "| some job |   129 | 20.0 ns |  10.0 ns |  2.00 | 1.25 to 2.50 |"
        );
    }

    #[test]
    fn payloads_alone() {
        let of = |name, proved, ordinary| job(name, [vec![proved], vec![ordinary]]);
        let mut report = Report {
            jobs: vec![of(GATHERED, 500.0, 300.0), of(FETCHED, 150.0, 400.0)],
            copies: vec![copy(100.0)],
        };
        assert!(report.payload_table().is_none());
        report.jobs.push(of(DRAWING_NOTHING, 200.0, 100.0));
        let lines = report.payload_table().expect("a table").lines();
        assert!(lines[2].ends_with("|    3.0 |      2.0 |"), "{}", lines[2]);
        assert!(lines[3].ends_with("|   -0.5 |      3.0 |"), "{}", lines[3]);
    }
}
