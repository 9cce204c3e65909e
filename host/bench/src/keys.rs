//! The entries that both sides are given, in the very same order: running numbers as keys, random hashes and values.
use oracle::random::Random;
use shelf::Entry;

/// The one seed: every run has the same entries.
const SEED: u64 = 1;

/// The most entries that an updating measurement puts in, replaces or takes out in one pass.
const MOST_UPDATED: usize = 10_000;

/// The most editions that are kept at once.
pub const BATCH: usize = 256;

/// Entries for an edition of one size. Those that are looked up or updated stand one behind the other in the order in
/// which that is done, which is random, so that reading them costs little, and both sides alike.
pub struct Keys {
    /// The entries of the edition, in the order in which it is built.
    pub present: Vec<Entry>,
    /// The same entries in another order.
    pub hits: Vec<Entry>,
    /// As many that are not in the edition.
    pub misses: Vec<Entry>,
    /// Some that are not in the edition, to be put in and taken out again. They are at most a quarter as many as those
    /// present, so that the size stays near what it was.
    pub added: Vec<Entry>,
    /// Some of those present, in a third order, to be given other values.
    pub replaced: Vec<Entry>,
}

fn entries(random: &mut Random, first_key: usize, count: usize) -> Vec<Entry> {
    let keys = first_key as u64..(first_key + count) as u64;
    keys.map(|key| Entry { hash: random.word(), key, value: random.word() }).collect()
}

fn shuffled(random: &mut Random, entries: &[Entry]) -> Vec<Entry> {
    let mut shuffled = entries.to_vec();
    for last in (1..shuffled.len()).rev() {
        shuffled.swap(last, random.below(last as u64 + 1) as usize);
    }
    shuffled
}

impl Keys {
    /// The entries for an edition of `size` entries.
    pub fn new(size: usize) -> Keys {
        let mut random = Random::new(&[SEED, size as u64]);
        let present = entries(&mut random, 0, size);
        let misses = entries(&mut random, size, size);
        let added = entries(&mut random, 2 * size, (size / 4).clamp(1, MOST_UPDATED));
        let hits = shuffled(&mut random, &present);
        let mut replaced = shuffled(&mut random, &present);
        replaced.truncate(MOST_UPDATED);
        Keys { present, hits, misses, added, replaced }
    }

    /// How many entries the edition has.
    pub fn size(&self) -> usize {
        self.present.len()
    }
}
