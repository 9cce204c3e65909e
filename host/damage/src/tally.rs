//! What the trials have seen.
use std::fmt;
use std::time::Duration;

/// Counts of arenas and calls, and the longest call.
#[derive(Default)]
pub struct Tally {
    sound: u64,
    unsound: u64,
    headless: u64,
    calls: u64,
    longest: Duration,
    longest_name: &'static str,
}

impl Tally {
    /// Counts an arena.
    pub fn arena(&mut self, is_header_right: bool, is_sound: bool) {
        self.sound += u64::from(is_sound);
        self.unsound += u64::from(is_header_right && !is_sound);
        self.headless += u64::from(!is_header_right);
    }

    /// Counts a call, by its name and how long it took.
    pub fn call(&mut self, name: &'static str, took: Duration) {
        self.calls += 1;
        if took > self.longest {
            self.longest = took;
            self.longest_name = name;
        }
    }

    /// How long the longest call took.
    pub fn longest(&self) -> Duration {
        self.longest
    }

    /// How many arenas were tried.
    pub fn arenas(&self) -> u64 {
        self.sound + self.unsound + self.headless
    }
}

impl fmt::Display for Tally {
    fn fmt(&self, out: &mut fmt::Formatter<'_>) -> fmt::Result {
        writeln!(out, "{:<28}{:>12}", "arenas sound", self.sound)?;
        writeln!(out, "{:<28}{:>12}", "arenas unsound", self.unsound)?;
        writeln!(out, "{:<28}{:>12}", "arenas with a wrong header", self.headless)?;
        writeln!(out, "{:<28}{:>12}", "calls made", self.calls)?;
        write!(out, "{:<28}{:>9} µs ({})", "longest call", self.longest.as_micros(), self.longest_name)
    }
}
