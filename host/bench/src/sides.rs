//! The two sides that are measured, behind one trait: the crate's map, and the proved library in an arena.
use crate::keys::{BATCH, Keys};
use crate::room;
use oracle::rpds_trie::{Key, Map, empty_map};
use shelf::{Arena, Edition, Entry, Refusal, Words};
use std::error::Error;
use std::mem;

/// What can be done on either side. A loop over these calls is compiled for each side by itself.
pub trait Side: Sized {
    /// An edition that is held: the crate's map itself, or the library's number for it.
    type Held;

    /// The side's name in tables and options.
    const NAME: &'static str;

    /// The side with room for the keys.
    fn open(degree: u64, keys: &Keys) -> Result<Self, Box<dyn Error>>;

    /// An edition without entries.
    fn empty(&mut self) -> Result<Self::Held, Refusal>;

    /// The value of the entry with this hash and key.
    fn get(&self, of: &Self::Held, hash: u64, key: u64) -> Option<u64>;

    /// A new edition with the entry; the old one stays.
    fn insert(&mut self, into: &Self::Held, entry: Entry) -> Result<Self::Held, Refusal>;

    /// A new edition without the entry; the old one stays.
    fn remove(&mut self, from: &Self::Held, hash: u64, key: u64) -> Result<Self::Held, Refusal>;

    /// Lets an edition go.
    fn let_go(&mut self, held: Self::Held) -> Result<(), Refusal>;

    /// Lists an edition whole, and adds up a number for each entry, of its hash, key and value.
    fn list(&mut self, of: &Self::Held) -> Result<u64, Refusal>;

    /// How many cells there are for a check to look at: none where there is no check.
    fn cells(&self) -> usize;
}

/// A number that an entry comes to, so that a sum of them shows whether two listings agree.
#[inline]
fn mixed(hash: u64, key: u64, value: u64) -> u64 {
    hash ^ key ^ value
}

/// The crate rpds 1.2.1.
pub struct Crate {
    degree: u8,
}

impl Side for Crate {
    type Held = Map;

    const NAME: &'static str = "crate";

    fn open(degree: u64, _keys: &Keys) -> Result<Self, Box<dyn Error>> {
        Ok(Crate { degree: u8::try_from(degree)? })
    }

    fn empty(&mut self) -> Result<Map, Refusal> {
        Ok(empty_map(self.degree))
    }

    #[inline]
    fn get(&self, of: &Map, hash: u64, key: u64) -> Option<u64> {
        of.get(&Key { hash, key }).copied()
    }

    #[inline]
    fn insert(&mut self, into: &Map, entry: Entry) -> Result<Map, Refusal> {
        Ok(into.insert(Key { hash: entry.hash, key: entry.key }, entry.value))
    }

    #[inline]
    fn remove(&mut self, from: &Map, hash: u64, key: u64) -> Result<Map, Refusal> {
        Ok(from.remove(&Key { hash, key }))
    }

    #[inline]
    fn let_go(&mut self, held: Map) -> Result<(), Refusal> {
        drop(held);
        Ok(())
    }

    #[inline]
    fn list(&mut self, of: &Map) -> Result<u64, Refusal> {
        let add = |sum: u64, (key, value): (&Key, &u64)| sum.wrapping_add(mixed(key.hash, key.key, *value));
        Ok(of.iter().fold(0, add))
    }

    fn cells(&self) -> usize {
        0
    }
}

/// The proved library. It works in one arena, which is formatted once.
pub struct Library {
    arena: Arena<Words>,
    /// Room for every entry of an edition, lent to each listing.
    listed: Vec<u64>,
    /// A word for each cell, lent to each check.
    work: Vec<u64>,
}

impl Library {
    /// Tests every word of the arena.
    #[inline]
    pub fn check(&mut self) -> Result<(), Refusal> {
        self.arena.check(&mut self.work)
    }
}

impl Side for Library {
    type Held = Edition;

    const NAME: &'static str = "library";

    fn open(degree: u64, keys: &Keys) -> Result<Self, Box<dyn Error>> {
        let sizes = room::sizes(degree, keys);
        let arena = Arena::owned(sizes).map_err(|why| {
            let (branches, entries) = (sizes.branches, sizes.entries);
            format!("there is no arena of degree {degree} with {branches} branch and {entries} entry cells: {why}")
        })?;
        let listed = vec![0; 3 * (keys.present.len() + keys.added.len())];
        Ok(Library { arena, listed, work: vec![0; sizes.work_words()] })
    }

    fn empty(&mut self) -> Result<Edition, Refusal> {
        self.arena.new_edition()
    }

    #[inline]
    fn get(&self, of: &Edition, hash: u64, key: u64) -> Option<u64> {
        self.arena.get(*of, hash, key).ok()
    }

    #[inline]
    fn insert(&mut self, into: &Edition, entry: Entry) -> Result<Edition, Refusal> {
        Ok(self.arena.insert(*into, entry.hash, entry.key, entry.value)?.edition)
    }

    #[inline]
    fn remove(&mut self, from: &Edition, hash: u64, key: u64) -> Result<Edition, Refusal> {
        Ok(self.arena.remove(*from, hash, key)?.edition)
    }

    #[inline]
    fn let_go(&mut self, held: Edition) -> Result<(), Refusal> {
        self.arena.drop(held).map(|_| ())
    }

    #[inline]
    fn list(&mut self, of: &Edition) -> Result<u64, Refusal> {
        let written = self.arena.list(*of, 0, &mut self.listed)? as usize;
        let triples = self.listed.chunks_exact(3).take(written);
        Ok(triples.fold(0, |sum, triple| sum.wrapping_add(mixed(triple[0], triple[1], triple[2]))))
    }

    fn cells(&self) -> usize {
        self.work.len()
    }
}

/// A side with the editions that it holds.
pub struct Stand<S: Side> {
    /// The side.
    pub side: S,
    /// The edition that is measured.
    pub edition: S::Held,
    /// Newer editions that are kept, each made of the one before it, the first of the edition above.
    pub kept: Vec<S::Held>,
    /// How often values were replaced: each time by others.
    pub turns: u64,
}

impl<S: Side> Stand<S> {
    /// A side that holds one edition, with the keys' entries put in one by one and each older edition let go.
    pub fn build(degree: u64, keys: &Keys) -> Result<Self, Box<dyn Error>> {
        let mut side = S::open(degree, keys)?;
        let edition = side.empty()?;
        let mut stand = Stand { side, edition, kept: Vec::with_capacity(BATCH), turns: 0 };
        for entry in &keys.present {
            stand.put(*entry)?;
        }
        Ok(stand)
    }

    /// Puts an entry in, and lets the older edition go.
    #[inline]
    pub fn put(&mut self, entry: Entry) -> Result<(), Refusal> {
        let next = self.side.insert(&self.edition, entry)?;
        self.side.let_go(mem::replace(&mut self.edition, next))
    }

    /// Takes an entry out, and lets the older edition go.
    #[inline]
    pub fn take(&mut self, hash: u64, key: u64) -> Result<(), Refusal> {
        let next = self.side.remove(&self.edition, hash, key)?;
        self.side.let_go(mem::replace(&mut self.edition, next))
    }

    /// Lets every kept edition go, the oldest first.
    pub fn let_kept_go(&mut self) -> Result<(), Refusal> {
        self.kept.drain(..).try_for_each(|held| self.side.let_go(held))
    }
}
