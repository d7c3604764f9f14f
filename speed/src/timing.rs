//! Rounds: how often work is repeated in one, and the two sides in turns.

use std::hint::black_box;
use std::time::{Duration, Instant};

use model::firmware::Calls;
use model::packet::LONGEST;

use crate::copies::Message;
use crate::job::{Job, Lent};

/// What a round takes at the least, so that the clock's own time does not count.
const ROUND: Duration = Duration::from_micros(200);
/// Tries of a number of repetitions: one that is interrupted seems to be enough too early.
const TRIES: usize = 3;
/// With so many repetitions a round is long enough in any case.
const MOST: usize = 1 << 20;

/// The nanoseconds that a job takes, round by round, on the proved and on the ordinary side.
pub fn job(job: &Job, sides: &[Calls; 2], rounds: usize) -> [Vec<f64>; 2] {
    let mut lent = job.before.clone();
    let times = repetitions(|times| {
        let both = sides.each_ref();
        both.map(|calls| round(job, calls, &mut lent, times))
            .into_iter()
            .min()
            .unwrap_or_default()
    });
    let mut taken = [Vec::new(), Vec::new()];
    for number in 0..rounds {
        let first = number % 2;
        for side in [first, 1 - first] {
            let round = round(job, &sides[side], &mut lent, times);
            taken[side].push(each(round, times));
        }
    }
    taken
}

/// The nanoseconds that a copy takes, round by round.
pub fn copy(copy: fn(&[u8], &mut [u8]), rounds: usize) -> Vec<f64> {
    let (from, mut to) = (Message([1; LONGEST]), Message([0; LONGEST]));
    let mut round = |times| repeated(times, || copy(black_box(&from.0), black_box(&mut to.0)));
    let times = repetitions(&mut round);
    (0..rounds).map(|_| each(round(times), times)).collect()
}

/// One side's round. The buffers are filled before it, and not while the clock runs.
fn round(job: &Job, calls: &Calls, lent: &mut Lent, times: usize) -> Duration {
    lent.clone_from(&job.before);
    // The calls are not known here, so that none of them can become a part of the loop.
    let calls = black_box(calls);
    repeated(times, || {
        job.play(calls, lent, |word, _| {
            black_box(word);
        });
    })
}

fn repeated(times: usize, mut work: impl FnMut()) -> Duration {
    let begin = Instant::now();
    for _ in 0..times {
        work();
    }
    begin.elapsed()
}

/// How often work is to be repeated in a round; `round` tells what so many repetitions take.
fn repetitions(mut round: impl FnMut(usize) -> Duration) -> usize {
    let mut is_long = |times| (0..TRIES).all(|_| round(times) >= ROUND);
    let mut times = 1;
    while times < MOST && !is_long(times) {
        times *= 2;
    }
    times
}

/// The nanoseconds of one repetition.
fn each(round: Duration, times: usize) -> f64 {
    round.as_nanos() as f64 / times as f64
}

#[cfg(test)]
mod tests {
    use super::*;

    #[test]
    fn repetitions_make_a_round_long_enough() {
        assert_eq!(repetitions(|_| Duration::from_secs(1)), 1);
        let of_each = |nanos| move |times| Duration::from_nanos(nanos * times as u64);
        for nanos in [1, 20, 999, 150_000, 200_000] {
            let times = repetitions(of_each(nanos));
            let taken = of_each(nanos)(times);
            assert!((ROUND..2 * ROUND).contains(&taken), "{times} of {nanos} ns");
        }
    }

    #[test]
    fn a_clock_that_stands_still_ends_too() {
        assert_eq!(repetitions(|_| Duration::ZERO), MOST);
    }

    #[test]
    fn an_interruption_is_not_taken_for_work() {
        let mut tries = 0;
        let times = repetitions(|times| {
            tries += 1;
            let interrupted = u64::from(tries % 2 == 0) * 1_000_000;
            Duration::from_nanos(interrupted + 100 * times as u64)
        });
        assert_eq!(times, 2_048);
    }

    #[test]
    fn the_time_of_one_repetition() {
        assert_eq!(each(Duration::from_micros(3), 4), 750.0);
    }
}
