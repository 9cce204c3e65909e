//! How far a long run is: a line on standard error, written over again, if a person looks on.
use std::io::{self, IsTerminal, Write};
use std::time::{Duration, Instant};

/// How long a line stands at least.
const INTERVAL: Duration = Duration::from_millis(300);

/// A line that says how far a run is. Nothing is written where standard error is no terminal.
pub struct Progress {
    written: Option<Instant>,
    is_seen: bool,
}

impl Default for Progress {
    fn default() -> Self {
        Progress { written: None, is_seen: io::stderr().is_terminal() }
    }
}

impl Progress {
    /// Says how far the run is, unless it was said just now.
    pub fn say(&mut self, how_far: impl FnOnce() -> String) {
        if !self.is_seen || self.written.is_some_and(|at| at.elapsed() < INTERVAL) {
            return;
        }
        self.written = Some(Instant::now());
        // A line that cannot be written is no reason to stop.
        let _ = write!(io::stderr(), "\r\x1b[K{}", how_far());
    }
}

impl Drop for Progress {
    fn drop(&mut self) {
        if self.written.is_some() {
            let _ = write!(io::stderr(), "\r\x1b[K");
        }
    }
}
