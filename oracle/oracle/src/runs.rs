//! Random runs of calls: the keys that a run draws from, and a player that chooses the next call.
use crate::calls::{Answer, Call, Entry, number};
use crate::paper;
use crate::random::Random;
use crate::shelf::Shelf;
use crate::trie::Trie;

/// How the hashes of a run lie to each other.
#[derive(Clone, Copy, Debug, PartialEq, Eq)]
pub enum Hashes {
    /// A few hashes with many keys each: chains.
    Colliding,
    /// Hashes that differ in their low bits: a bushy top.
    LowBits,
    /// Hashes that differ in their high bits alone: long paths.
    HighBits,
    /// Hashes that differ in the segment of the last depth: singles, and chains, below the last branch.
    LastDepth,
    /// Any hashes.
    Random,
    /// Some of each.
    Mixed,
}

impl Hashes {
    /// Every kind.
    pub const ALL: [Hashes; 6] =
        [Hashes::Colliding, Hashes::LowBits, Hashes::HighBits, Hashes::LastDepth, Hashes::Random, Hashes::Mixed];
}

/// A hash and a key.
pub type Pair = (u64, u64);

/// The pairs that a run draws from. Some share a hash and some share a key, but no two share both where `hashes` is not
/// mixed.
pub fn pool(hashes: Hashes, degree: u64, count: u64, random: &mut Random) -> Vec<Pair> {
    let (bits, depths) = paper::row(degree).expect("a degree of the table");
    let last = (depths - 1) * bits;
    let base = random.word();
    let few: Vec<u64> = (0..1 + count / 14).map(|_| random.word()).collect();
    let high = 64 - count.next_power_of_two().trailing_zeros().max(1);
    let mut pair = |hashes: Hashes, at: u64| match hashes {
        Hashes::Colliding => (few[at as usize % few.len()], at / few.len() as u64),
        Hashes::LowBits => (at, at % 5),
        Hashes::HighBits => (at << high, at % 5),
        Hashes::LastDepth => (base ^ ((at % (1 << (64 - last))) << last), at >> (64 - last)),
        Hashes::Random | Hashes::Mixed => (random.word(), at),
    };
    let kind = |at: u64| if hashes == Hashes::Mixed { Hashes::ALL[at as usize % 5] } else { hashes };
    (0..count).map(|at| pair(kind(at), at)).collect()
}

/// Chooses the calls of a run, from what the shelf holds and a source of random numbers.
pub struct Player {
    pool: Vec<Pair>,
    random: Random,
    /// of a hundred calls, how many only read
    reads: u64,
    updates: u64,
    updates_made: u64,
    /// whether editions only come: none is dropped, and no entry is taken out
    grows: bool,
    /// the edition that the run goes on from; others are made on the side
    newest: u64,
}

impl Player {
    /// A player of a run of so many updates: it grows an edition, changes it, and takes it down again.
    pub fn new(pool: Vec<Pair>, updates: u64, reads: u64, random: Random) -> Player {
        Player { pool, random, reads, updates, updates_made: 0, grows: false, newest: 0 }
    }

    /// A player whose run has no drop and no removal, and goes on from older editions as often as from the newest.
    pub fn growing(pool: Vec<Pair>, updates: u64, reads: u64, random: Random) -> Player {
        Player { grows: true, ..Player::new(pool, updates, reads, random) }
    }

    /// Tells the player what a call answered.
    pub fn saw(&mut self, call: &Call, answer: &Answer) {
        self.updates_made += u64::from(call.is_update());
        let (Call::Insert { edition, .. } | Call::Change { edition, .. } | Call::Remove { edition, .. }) = *call else {
            return;
        };
        if answer.number == number::DONE && edition == self.newest {
            self.newest = answer.values[0];
        }
    }

    /// The next call, if the run is not over.
    pub fn next<T: Trie>(&mut self, shelf: &Shelf<T>) -> Option<Call> {
        if self.updates_made >= self.updates {
            return None;
        }
        let held: Vec<u64> = shelf.held().collect();
        if held.is_empty() {
            return Some(Call::NewEdition);
        }
        if !held.contains(&self.newest) {
            self.newest = *self.random.of(&held);
        }
        let is_full = held.len() == shelf.editions();
        if !self.grows && held.len() > 1 && self.random.percent(if is_full { 90 } else { 20 }) {
            let edition = *self.random.of(&held);
            if edition != self.newest || self.random.percent(5) {
                return Some(Call::Drop { edition });
            }
        }
        let edition = match self.random.below(100) {
            0 => self.random.below(2 * shelf.editions() as u64),
            roll if roll < if self.grows { 50 } else { 15 } => *self.random.of(&held),
            _ => self.newest,
        };
        Some(match self.random.below(100) {
            0 => Call::NewEdition,
            1..4 => Call::Share { edition },
            roll if roll < self.reads + 4 => self.read(shelf, edition, &held),
            _ => self.update(shelf, edition),
        })
    }

    fn read<T: Trie>(&mut self, shelf: &Shelf<T>, edition: u64, held: &[u64]) -> Call {
        let size = shelf.edition(edition).map_or(0, T::size);
        match self.random.below(10) {
            0 => Call::Size { edition },
            1 => Call::InUse,
            2 => Call::Equal { first: edition, second: *self.random.of(held) },
            3 => {
                let place = self.random.below(size + 2);
                let room = self.random.below(18);
                Call::List { edition, place, room }
            }
            _ => {
                let (hash, key) = self.pair(shelf, edition, 50);
                match self.random.below(8) {
                    0 => Call::Get { edition, hash, key: key ^ 1 },
                    1 => Call::Get { edition, hash: hash ^ (1 << self.random.below(64)), key },
                    _ => Call::Get { edition, hash, key },
                }
            }
        }
    }

    /// Half of the updates grow the edition, the first of them without a removal; a quarter keeps its size, and a quarter
    /// takes it down. Where editions only come, all of them grow it or keep its size.
    fn update<T: Trie>(&mut self, shelf: &Shelf<T>, edition: u64) -> Call {
        let (inserts, changes) = match self.updates_made * 4 / self.updates {
            _ if self.grows => (70, 30),
            0 => (85, 15),
            1 => (75, 10),
            2 => (30, 30),
            _ => (8, 7),
        };
        let roll = self.random.below(100);
        if roll < inserts {
            let (hash, key) = *self.random.of(&self.pool);
            return Call::Insert { edition, entry: self.entry(hash, key) };
        }
        let (hash, key) = self.pair(shelf, edition, 90);
        if roll < inserts + changes {
            Call::Change { edition, entry: self.entry(hash, key) }
        } else {
            Call::Remove { edition, hash, key }
        }
    }

    /// A pair that the edition has, in `present` of 100 cases; else any of the pool.
    fn pair<T: Trie>(&mut self, shelf: &Shelf<T>, edition: u64, present: u64) -> Pair {
        let listing = shelf.edition(edition).map_or(Vec::new(), T::listing);
        if !listing.is_empty() && self.random.percent(present) {
            let entry = self.random.of(&listing);
            return (entry.hash, entry.key);
        }
        *self.random.of(&self.pool)
    }

    /// An entry with a value that it may well have had before.
    fn entry(&mut self, hash: u64, key: u64) -> Entry {
        Entry { hash, key, value: self.random.below(3) }
    }
}
