//! The runs of a comparison: how many entries each grows to, over which hashes, and in how large an arena.
use oracle::calls::Call;
use oracle::paper;
use oracle::random::Random;
use oracle::runs::{Hashes, Pair, pool};

/// How many pairs a small run draws from.
const SMALL: [u64; 11] = [1, 2, 3, 5, 8, 14, 30, 60, 120, 200, 300];

/// Of a hundred operations at a degree, how many go to runs of so many entries; the others go to small runs.
const LARGE: [(u64, u64); 3] = [(100_000, 31), (10_000, 10), (1_000, 10)];

/// Calls that a large run takes for each of its entries, so that it grows to all of them and goes on for a while.
const CALLS_BY_ENTRY: u64 = 5;

/// A run.
#[derive(Clone, Debug)]
pub struct Run {
    /// Its number among those of its degree.
    pub number: u64,
    /// The degree.
    pub degree: u64,
    /// How many pairs it draws from.
    pub entries: u64,
    /// How their hashes lie to each other.
    pub hashes: Hashes,
    /// How many calls it makes.
    pub calls: u64,
}

/// The runs of a degree, for so many operations: the large ones, then small ones without end. Of these sizes and hashes take
/// turns; there are eleven of the one and six of the other, so that each comes with each.
pub fn runs(degree: u64, operations: u64) -> impl Iterator<Item = Run> {
    let large = LARGE.into_iter().flat_map(move |(entries, share)| {
        let calls = operations / 100 * share;
        let entries = entries.min(calls / CALLS_BY_ENTRY).max(1);
        let count = calls / (entries * CALLS_BY_ENTRY);
        (0..count).map(move |_| (entries, Hashes::Random, entries * CALLS_BY_ENTRY))
    });
    let small = SMALL.into_iter().cycle().zip(Hashes::ALL.into_iter().cycle());
    let small = small.map(|(entries, hashes)| (entries, hashes, 10 * entries + 200));
    let runs = (0..).zip(large.chain(small));
    runs.map(move |(number, (entries, hashes, calls))| Run { number, degree, entries, hashes, calls })
}

impl Run {
    /// The random numbers of the run under a seed.
    pub fn random(&self, seed: u64) -> Random {
        Random::new(&[seed, self.degree, self.number])
    }

    /// Whether the run has few entries, so that all words can be looked at often.
    pub fn is_small(&self) -> bool {
        self.entries <= SMALL[SMALL.len() - 1]
    }

    /// The pairs that the run draws from.
    pub fn pool(&self, random: &mut Random) -> Vec<Pair> {
        pool(self.hashes, self.degree, self.entries, random)
    }

    /// The arena of the run: a few slots, and room for most of what the run comes to hold. One in six small runs has so few
    /// branch cells, entry cells, or both, that updates are refused for want of them.
    pub fn format(&self, random: &mut Random) -> Call {
        let editions = 2 + random.below(if self.is_small() { 6 } else { 4 });
        let ample = self.ample(editions);
        let little = (1 + random.below(self.entries + 20), 1 + random.below(2 * self.entries));
        let (branches, entries) = match random.below(18) {
            0 if self.is_small() => (little.0, ample.1),
            1 if self.is_small() => (ample.0, little.1),
            2 if self.is_small() => little,
            _ => ample,
        };
        Call::Format { degree: self.degree, branches, entries, editions }
    }

    /// Branch cells and entry cells for editions that share about half of what they hold. Under random hashes an edition has
    /// fewer branches than three times its entries by the bits of a segment; a chain has as many above it as there are depths.
    fn ample(&self, editions: u64) -> (u64, u64) {
        let (bits, depths) = paper::row(self.degree).map_or((1, 64), |(bits, depths)| (bits.into(), depths.into()));
        let random = 3 * self.entries / bits;
        let chains = if self.is_small() { depths * (2 + self.entries / 10) } else { depths };
        let times = 1 + editions / 2;
        (times * (random + chains), times * self.entries * 3 / 2 + 20)
    }
}
