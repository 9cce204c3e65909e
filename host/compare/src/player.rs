//! Chooses the calls of a run, from what the crate's side holds and a source of random numbers.
use crate::expected::Expected;
use oracle::calls::{Answer, Call, Entry, number};
use oracle::random::Random;
use oracle::runs::Pair;

/// How many entries, for each call of a run, may be gone through by the calls that go through many: listings and comparisons.
/// So a run of many entries has few of them, and takes no longer by the call than one of few.
const PATIENCE: u64 = 100;

/// A run grows an edition to all of its pairs, then changes it, then takes it down.
#[derive(Clone, Copy, PartialEq, Eq)]
enum Phase {
    Grow,
    Change,
    Shrink,
}

/// The player of one run.
pub struct Player {
    pool: Vec<Pair>,
    random: Random,
    calls: u64,
    made: u64,
    /// the places in the pool of the next pair to put in, and of the next to take out
    next_in: usize,
    next_out: usize,
    /// how many calls had been made when all pairs were in
    grown_at: u64,
    patience: u64,
    /// the edition that the run goes on from; others are made on the side
    newest: u64,
    /// whether the last call found no slot, or too few cells
    is_short: bool,
}

impl Player {
    /// A player of so many calls, about, over these pairs, of which there is one at least.
    pub fn new(pool: Vec<Pair>, calls: u64, random: Random) -> Player {
        Player {
            pool,
            random,
            calls,
            made: 0,
            next_in: 0,
            next_out: 0,
            grown_at: calls / 10 * 8,
            patience: 0,
            newest: 0,
            is_short: false,
        }
    }

    /// Tells the player what a call answered.
    pub fn saw(&mut self, call: &Call, answer: &Answer) {
        self.is_short = matches!(answer.number, number::NO_SLOT | number::NO_BRANCH_CELLS | number::NO_ENTRY_CELLS);
        let (edition, inserted) = match *call {
            Call::Insert { edition, entry } => (edition, Some((entry.hash, entry.key))),
            Call::Change { edition, .. } | Call::Remove { edition, .. } => (edition, None),
            _ => return,
        };
        if answer.number != number::DONE || edition != self.newest {
            return;
        }
        self.newest = answer.values[0];
        if inserted.is_some() && inserted.as_ref() == self.pool.get(self.next_in) {
            self.next_in += 1;
            if self.next_in == self.pool.len() {
                self.grown_at = self.made.min(self.grown_at);
            }
        }
    }

    /// The next call.
    pub fn next(&mut self, shelf: &Expected) -> Call {
        self.made += 1;
        self.patience += PATIENCE;
        let held: Vec<u64> = shelf.held().collect();
        if held.is_empty() {
            return Call::NewEdition;
        }
        if !held.contains(&self.newest) {
            self.newest = *self.random.of(&held);
        }
        let is_full = self.is_short || held.len() == shelf.slots();
        if held.len() > 1 && self.random.percent(if is_full { 85 } else { 10 }) {
            return self.drop_one(&held);
        }
        let edition = match self.random.below(200) {
            0 => self.random.word(),
            1 | 2 => self.random.below(2 * shelf.slots() as u64),
            roll if roll < 25 => *self.random.of(&held),
            _ => self.newest,
        };
        let phase = self.phase();
        let reads = if phase == Phase::Grow { 300 } else { 600 };
        match self.random.below(1000) {
            0 => self.bad_format(),
            1..8 => Call::NewEdition,
            8..30 => Call::Share { edition },
            roll if roll < 30 + reads => self.read(shelf, edition, &held),
            _ => self.update(phase, edition),
        }
    }

    /// Mostly an edition that the run does not go on from.
    fn drop_one(&mut self, held: &[u64]) -> Call {
        let edition = *self.random.of(held);
        if edition != self.newest || self.random.percent(1) && self.pool.len() < 1000 {
            return Call::Drop { edition };
        }
        let others: Vec<u64> = held.iter().copied().filter(|edition| *edition != self.newest).collect();
        Call::Drop { edition: *self.random.of(&others) }
    }

    /// A format that is refused.
    fn bad_format(&mut self) -> Call {
        let degree = *self.random.of(&[0, 1, 3, 16, 65, 128, u64::MAX]);
        let mut size = || *self.random.of(&[0, 1, 100, u64::MAX]);
        Call::Format { degree, branches: size(), entries: size(), editions: 4097 }
    }

    /// It grows for eight tenths of its calls at most, and changes for half of those that are left then.
    fn phase(&self) -> Phase {
        if self.made < self.grown_at && self.next_in < self.pool.len() {
            Phase::Grow
        } else if self.made < self.grown_at + (self.calls - self.grown_at) / 2 {
            Phase::Change
        } else {
            Phase::Shrink
        }
    }

    /// An insert, a change or a removal, by what the run is at.
    fn update(&mut self, phase: Phase, edition: u64) -> Call {
        let (inserts, changes) = match phase {
            Phase::Grow => (93, 7),
            Phase::Change => (35, 35),
            Phase::Shrink => (6, 6),
        };
        let roll = self.random.below(100);
        let (hash, key) = match phase {
            Phase::Grow if roll < inserts - 4 => self.pool[self.next_in],
            Phase::Shrink if roll >= inserts + changes && self.random.percent(90) => {
                self.next_out += 1;
                self.pool[self.next_out % self.pool.len()]
            }
            _ => self.pair(3),
        };
        let entry = Entry { hash, key, value: self.value() };
        match roll {
            roll if roll < inserts => Call::Insert { edition, entry },
            roll if roll < inserts + changes => Call::Change { edition, entry },
            _ => Call::Remove { edition, hash, key },
        }
    }

    fn read(&mut self, shelf: &Expected, edition: u64, held: &[u64]) -> Call {
        match self.random.below(20) {
            0 => Call::Size { edition },
            1 => Call::InUse,
            2..5 => self.equal(shelf, edition, held),
            5..8 => self.list(edition, shelf.size(edition)),
            _ => self.get(edition),
        }
    }

    fn get(&mut self, edition: u64) -> Call {
        let (hash, key) = self.pair(15);
        Call::Get { edition, hash, key }
    }

    /// Two editions; those of different sizes are not gone through.
    fn equal(&mut self, shelf: &Expected, edition: u64, held: &[u64]) -> Call {
        let second = if self.random.percent(2) { self.random.word() } else { *self.random.of(held) };
        let size = shelf.size(edition);
        let is_quick = size != shelf.size(second);
        let (first, second) = if self.random.percent(50) { (edition, second) } else { (second, edition) };
        self.unless_long(if is_quick { 0 } else { size }, Call::Equal { first, second }, edition)
    }

    /// The whole listing, a page of it, its end, or what is refused.
    fn list(&mut self, edition: u64, size: u64) -> Call {
        let near = size.min(self.patience);
        let (place, room) = match self.random.below(8) {
            0 | 1 => (0, 3 * size + self.random.below(4)),
            2 => (size, self.random.below(8)),
            3 => (size.saturating_add(1 + self.random.below(2)), self.random.below(8)),
            4 => (self.random.below(near + 1), self.random.below(3)),
            5 => (self.random.below(size + 1), 3 * self.random.below(40)),
            _ => (self.random.below(near + 1), self.random.below(40)),
        };
        self.unless_long(place.min(size) + room / 3, Call::List { edition, place, room }, edition)
    }

    /// The call, if the run has the patience for so many entries; else a lookup in the edition.
    fn unless_long(&mut self, entries: u64, call: Call, edition: u64) -> Call {
        if entries > self.patience {
            return self.get(edition);
        }
        self.patience -= entries;
        call
    }

    /// A pair of the pool, in `spoilt` of 100 cases with another key or hash.
    fn pair(&mut self, spoilt: u64) -> Pair {
        let (hash, key) = *self.random.of(&self.pool);
        if !self.random.percent(spoilt) {
            return (hash, key);
        }
        match self.random.below(3) {
            0 => (hash, key ^ 1),
            1 => (hash ^ (1 << self.random.below(64)), key),
            _ => (self.random.word(), key),
        }
    }

    /// A value that an entry may well have had before, or any.
    fn value(&mut self) -> u64 {
        if self.random.percent(70) { self.random.below(3) } else { self.random.word() }
    }
}
