//! The progress of a long run, on standard error where that is a terminal.

use crate::output;
use crate::words;
use std::io::{self, IsTerminal};
use std::time::{Duration, Instant};

/// Shows nothing before this time is over, and then at most as often.
const EVERY: Duration = Duration::from_secs(1);

/// The progress of a run.
pub struct Progress {
    terminal: bool,
    start: Instant,
    shown: Instant,
    first: u64,
    wrote: bool,
}

impl Progress {
    pub fn start(steps: u64) -> Progress {
        let now = Instant::now();
        Progress { terminal: io::stderr().is_terminal(), start: now, shown: now, first: steps, wrote: false }
    }

    /// Says how many steps are made, if it is time.
    pub fn show(&mut self, steps: u64) {
        if !self.terminal || self.shown.elapsed() < EVERY {
            return;
        }
        self.shown = Instant::now();
        self.wrote = true;
        let millions = (steps - self.first) as f64 / self.start.elapsed().as_secs_f64() / 1e6;
        output::err(&format!("\r{} steps, {millions:.0} million a second ", words::count(steps)));
    }
}

impl Drop for Progress {
    fn drop(&mut self) {
        if self.wrote {
            output::err("\r\x1b[K");
        }
    }
}
