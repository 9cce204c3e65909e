//! Damaged arenas: sound ones with words changed, one at a time or at random. On each, check is held to a plain decision of
//! soundness, and every other call to what document 01 says of any words: that it ends, gives a number of the table, and
//! writes only what was lent to it.
//!
//! [`run`] is the program `damage`. What it is started with and how it reports is in [`program`], [`options`] and
//! [`progress`], which other programs use too.
pub mod arenas;
pub mod calls;
pub mod choice;
pub mod harm;
pub mod lent;
pub mod options;
pub mod plain;
pub mod program;
pub mod progress;
/// The oracle's random numbers. The file is compiled here by itself, since this crate has to do without the oracle.
#[path = "../../../oracle/oracle/src/random.rs"]
pub mod random;
pub mod shape;
pub mod soundness;
pub mod source;
pub mod tally;
pub mod trial;
pub mod verdict;

use progress::Progress;
use random::Random;
use shelf::Refusal;
use source::{Larger, Turns};
use tally::Tally;
use trial::Trial;

/// A run stops at so many faults.
const MOST_FAULTS: u64 = 10;

/// What a run has seen.
pub struct Report {
    /// Arenas and calls.
    pub tally: Tally,
    /// How many arenas showed a fault.
    pub faults: u64,
}

/// Tries so many arenas. Three in five, at most, are small ones with one word changed: all that there are, or else some of them
/// from all places; the others are larger ones. A fault is told by a sentence. Refused only if no sound arena can be made.
pub fn run(arenas: u64, seed: u64, mut tell: impl FnMut(&str)) -> Result<Report, Refusal> {
    let turns = Turns::new()?;
    let mut larger = Larger::new(Random::new(&[seed, 1]));
    let mut trial = Trial::new(Random::new(&[seed, 2]));
    let mut progress = Progress::default();
    let in_turn = (arenas / 5 * 3).min(turns.count());
    let mut faults = 0;
    for number in 0..arenas {
        let damaged =
            if number < in_turn { turns.damaged(number * turns.count() / in_turn) } else { larger.damaged()? };
        if let Err(what) = trial.of(&damaged.words) {
            faults += 1;
            tell(&format!("arena {number} of seed {seed} ({}): {what}", damaged.how));
        }
        if faults == MOST_FAULTS {
            break;
        }
        progress.say(|| format!("{number} of {arenas} arenas, {faults} faults"));
    }
    Ok(Report { tally: trial.tally, faults })
}
