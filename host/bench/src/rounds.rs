//! Rounds: the two sides one after the other on the same keys, with the order swapped each round.
use crate::keys::Keys;
use crate::kinds::Kind;
use crate::loops::Loops;
use crate::passes::{Measured, Passes};
use crate::ratios::{Outcome, Spread};
use crate::sides::{Crate, Library, Stand};
use std::error::Error;
use std::time::Duration;

/// How much is measured at each degree and size.
#[derive(Clone, Debug, PartialEq, Eq)]
pub struct Plan {
    /// The kinds, in the order of the tables.
    pub kinds: Vec<Kind>,
    /// How many rounds there are, beside one that warms up.
    pub rounds: usize,
    /// How long a measurement takes at least.
    pub least: Duration,
}

/// A measurement on both sides. The crate has no check.
struct Both {
    of_crate: Option<Measured>,
    of_library: Option<Measured>,
}

impl Both {
    fn shortest(&self) -> Option<Duration> {
        [self.of_crate, self.of_library].iter().flatten().map(|measured| measured.time).min()
    }
}

/// Both sides, with the same entries, which had the same calls.
struct Pair<'k> {
    degree: u64,
    keys: &'k Keys,
    of_crate: Stand<Crate>,
    of_library: Stand<Library>,
}

fn one<S: Loops>(stand: &mut Stand<S>, kind: Kind, keys: &Keys, times: usize) -> Result<Option<Measured>, String> {
    let Some(passes) = Passes::new(kind, keys) else { return Ok(None) };
    let refused = |why| format!("the {} refused a call of {}: {why}", S::NAME, kind.name());
    passes.measure(stand, times).map(Some).map_err(refused)
}

impl<'k> Pair<'k> {
    fn build(degree: u64, keys: &'k Keys) -> Result<Self, Box<dyn Error>> {
        let (of_crate, of_library) = (Stand::build(degree, keys)?, Stand::build(degree, keys)?);
        Ok(Pair { degree, keys, of_crate, of_library })
    }

    /// Measures both sides; what they read has to agree.
    fn both(&mut self, kind: Kind, times: usize, crate_first: bool) -> Result<Both, String> {
        let (of_crate, of_library);
        if crate_first {
            of_crate = one(&mut self.of_crate, kind, self.keys, times)?;
            of_library = one(&mut self.of_library, kind, self.keys, times)?;
        } else {
            of_library = one(&mut self.of_library, kind, self.keys, times)?;
            of_crate = one(&mut self.of_crate, kind, self.keys, times)?;
        }
        match (of_crate, of_library) {
            (Some(one), Some(other)) if one.sum != other.sum => Err(format!(
                "the sides differ at {}, degree {}, {} entries: the crate's sum is {:x}, the library's {:x}",
                kind.name(),
                self.degree,
                self.keys.size(),
                one.sum,
                other.sum
            )),
            _ => Ok(Both { of_crate, of_library }),
        }
    }

    /// How often both sides go over the entries so that each takes long enough. The measurements that find this out are
    /// the round that warms up. The first passes are slow, so the number grows by steps.
    fn times(&mut self, kind: Kind, least: Duration) -> Result<usize, String> {
        let mut times = 1;
        loop {
            let both = self.both(kind, times, true)?;
            let Some(shortest) = both.shortest().filter(|shortest| *shortest < least) else { return Ok(times) };
            let missing = least.as_secs_f64() / shortest.as_secs_f64().max(1e-9);
            times = (times as f64 * (1.1 * missing).min(16.0)).ceil() as usize;
        }
    }
}

/// What the rounds of one kind gave.
#[derive(Default)]
struct Numbers {
    of_crate: Vec<f64>,
    of_library: Vec<f64>,
    ratios: Vec<f64>,
}

impl Numbers {
    fn add(&mut self, both: &Both) {
        let of_crate = both.of_crate.map(|measured| measured.nanoseconds());
        let of_library = both.of_library.map(|measured| measured.nanoseconds());
        self.of_crate.extend(of_crate);
        self.of_library.extend(of_library);
        self.ratios.extend(of_crate.zip(of_library).map(|(of_crate, of_library)| of_library / of_crate));
    }
}

/// Measures one degree and size.
pub fn run(degree: u64, size: usize, plan: &Plan) -> Result<Vec<Outcome>, Box<dyn Error>> {
    let keys = Keys::new(size);
    let mut pair = Pair::build(degree, &keys)?;
    let mut kinds: Vec<(Kind, usize, Numbers)> = Vec::new();
    for kind in &plan.kinds {
        kinds.push((*kind, pair.times(*kind, plan.least)?, Numbers::default()));
    }
    for round in 0..plan.rounds {
        for (kind, times, numbers) in &mut kinds {
            numbers.add(&pair.both(*kind, *times, round % 2 == 0)?);
        }
    }
    // After all these updates the two list the same.
    pair.both(Kind::List, 1, true)?;
    let median = |numbers: &[f64]| Spread::of(numbers).map(|spread| spread.median);
    let outcome = |(kind, _, numbers): &(Kind, usize, Numbers)| {
        Some(Outcome {
            degree,
            size,
            kind: *kind,
            crate_nanoseconds: median(&numbers.of_crate),
            library_nanoseconds: median(&numbers.of_library)?,
            ratio: Spread::of(&numbers.ratios),
        })
    };
    Ok(kinds.iter().filter_map(outcome).collect())
}
