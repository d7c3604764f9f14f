//! What a long run shows while it goes on.

use std::sync::Mutex;
use std::time::{Duration, Instant};

/// How often progress is shown.
const EVERY: Duration = Duration::from_secs(5);

/// A run's clock.
pub struct Progress {
    begin: Instant,
    shown: Mutex<Instant>,
}

impl Progress {
    pub fn begin() -> Self {
        let begin = Instant::now();
        Progress {
            begin,
            shown: Mutex::new(begin),
        }
    }

    /// Shows how far a run has come, where that was not shown of late.
    pub fn show_at_times(&self, events: u64, scripts: u64) {
        let mut shown = self
            .shown
            .lock()
            .unwrap_or_else(|broken| broken.into_inner());
        if shown.elapsed() >= EVERY {
            *shown = Instant::now();
            self.show(events, scripts);
        }
    }

    /// Shows how far a run has come.
    pub fn show(&self, events: u64, scripts: u64) {
        let seconds = self.begin.elapsed().as_secs_f64();
        let rate = events as f64 / seconds;
        println!("{events} events in {scripts} scripts, {seconds:.0} s, {rate:.0} events a second");
    }
}
