//! The comparison: runs at every degree, until so many operations are done.
use crate::game::play;
use crate::library::Side;
use crate::runs::runs;
use crate::tally::Tally;
use damage::progress::Progress;
use oracle::DEGREES;

/// A comparison stops at so many differences.
const MOST_DIFFERENCES: u64 = 10;

/// What a comparison has seen.
#[derive(Default)]
pub struct Report {
    /// For each degree what was compared.
    pub tallies: Vec<Tally>,
    /// How many runs ended in a difference.
    pub differences: u64,
}

impl Report {
    /// How many calls were compared.
    pub fn operations(&self) -> u64 {
        self.tallies.iter().map(Tally::operations).sum()
    }
}

/// Compares so many operations, the same number at each degree, on sides that `make` makes. A difference ends its run, and is
/// told with what is needed to see it again.
pub fn compare<S: Side>(operations: u64, seed: u64, make: impl Fn() -> S, mut tell: impl FnMut(&str)) -> Report {
    let mut report = Report::default();
    let mut progress = Progress::default();
    let degrees = DEGREES.len() as u64;
    for (at, degree) in (0..).zip(DEGREES) {
        let share = operations / degrees + u64::from(at < operations % degrees);
        let before = report.operations();
        let mut tally = Tally::new(degree);
        for run in runs(degree, share) {
            let left = share - tally.operations();
            if left == 0 || report.differences == MOST_DIFFERENCES {
                break;
            }
            progress.say(|| format!("{} of {operations} operations", before + tally.operations()));
            if let Err(what) = play(&run, run.calls.min(left), seed, make(), &mut tally) {
                report.differences += 1;
                let number = before + tally.operations();
                tell(&format!("operation {number} (seed {seed}, degree {degree}, run {}): {what}", run.number));
            }
        }
        report.tallies.push(tally);
    }
    report
}
