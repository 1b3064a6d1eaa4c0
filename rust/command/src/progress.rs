//! How far a long check has come, on a terminal.

use crate::answers::grouped;
use std::io::{self, IsTerminal, Write};
use std::time::{Duration, Instant};

/// Nothing is shown before this time, and nothing again before it has passed once more.
const PAUSE: Duration = Duration::from_millis(400);

/// A line on standard error that is written over and at last removed.
pub struct Progress {
    points: u64,
    start: Instant,
    last: Instant,
    on_terminal: bool,
    shown: bool,
}

impl Progress {
    /// Nothing done of so many points.
    pub fn new(points: u64) -> Progress {
        let now = Instant::now();
        Progress {
            points,
            start: now,
            last: now,
            on_terminal: io::stderr().is_terminal(),
            shown: false,
        }
    }

    /// Shows how many points are done, and about how long the others take.
    pub fn show(&mut self, done: u64) {
        if !self.on_terminal || self.last.elapsed() < PAUSE || done == 0 {
            return;
        }
        let gone = self.start.elapsed().as_secs_f64();
        let left = gone / done as f64 * self.points.saturating_sub(done) as f64;
        let (done, points) = (grouped(done), grouped(self.points));
        let line = format!("\r\x1b[K{done} of {points} points, {left:.0} s left");
        let _ = io::stderr().write_all(line.as_bytes());
        (self.last, self.shown) = (Instant::now(), true);
    }
}

impl Drop for Progress {
    /// Removes the line.
    fn drop(&mut self) {
        if self.shown {
            let _ = write!(io::stderr(), "\r\x1b[K");
        }
    }
}
