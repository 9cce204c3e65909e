//! Editions in slots, over the crate's maps or document 01's. The slots, the room and the refusals are document 01's rules;
//! what the editions hold, and which cells an update takes, is the trie's own. A shelf answers each call as a formatted
//! arena has to.
use crate::calls::{Answer, Call, Cells, Entry, number};
use crate::paper;
use crate::trie::{Cell, Name, Names, Trie};

/// An arena as its callers see it, with no words behind it.
pub struct Shelf<T> {
    degree: u64,
    room: Cells,
    slots: Vec<Option<T>>,
    names: Names,
    /// by the name of a cell, how many held editions reach it
    holders: Vec<u32>,
    in_use: Cells,
}

type Refusal = u64;

impl<T: Trie> Default for Shelf<T> {
    fn default() -> Self {
        Shelf::formatted(0, Cells::default(), 0)
    }
}

impl<T: Trie> Shelf<T> {
    fn formatted(degree: u64, room: Cells, editions: usize) -> Self {
        let slots = std::iter::repeat_with(|| None).take(editions).collect();
        Shelf { degree, room, slots, names: Names::default(), holders: Vec::new(), in_use: Cells::default() }
    }

    /// Makes a call and answers it.
    pub fn call(&mut self, call: &Call) -> Answer {
        self.answer(call).unwrap_or_else(Answer::refused)
    }

    /// The numbers of the held editions, ascending.
    pub fn held(&self) -> impl Iterator<Item = u64> {
        self.slots.iter().enumerate().filter(|(_, slot)| slot.is_some()).map(|(at, _)| at as u64)
    }

    /// How many editions there is room for.
    pub fn editions(&self) -> usize {
        self.slots.len()
    }

    /// The cells that held editions reach, each once.
    pub fn in_use(&self) -> Cells {
        self.in_use
    }

    /// The trie of a held edition.
    pub fn edition(&self, edition: u64) -> Result<&T, Refusal> {
        let slot = usize::try_from(edition).ok().and_then(|at| self.slots.get(at));
        slot.and_then(Option::as_ref).ok_or(number::NO_SUCH_EDITION)
    }

    fn answer(&mut self, call: &Call) -> Result<Answer, Refusal> {
        // words that were never formatted have no right header
        if self.slots.is_empty() && !matches!(call, Call::Format { .. }) {
            return Err(number::DAMAGED);
        }
        match *call {
            Call::Format { degree, branches, entries, editions } => self.format(degree, branches, entries, editions),
            Call::NewEdition => {
                let slot = self.free_slot()?;
                Ok(Answer::done(self.hold(slot, T::empty(self.degree)), 0, 0))
            }
            Call::Share { edition } => {
                let trie = self.edition(edition)?.clone();
                let slot = self.free_slot()?;
                Ok(Answer::done(self.hold(slot, trie), 0, 0))
            }
            Call::Size { edition } => Ok(Answer::done(self.edition(edition)?.size(), 0, 0)),
            Call::InUse => Ok(Answer::done(self.in_use.branches, self.in_use.entries, 0)),
            Call::Get { edition, hash, key } => {
                let value = self.edition(edition)?.get(hash, key).ok_or(number::ABSENT)?;
                Ok(Answer::done(value, 0, 0))
            }
            Call::List { edition, place, room } => list(&self.edition(edition)?.listing(), place, room),
            Call::Equal { first, second } => {
                let (first, second) = (self.edition(first)?, self.edition(second)?);
                Ok(Answer::done(first.equal(second).into(), 0, 0))
            }
            Call::Insert { edition, entry } => self.update(edition, |trie, names| Some(trie.insert(entry, names))),
            Call::Change { edition, entry } => self.update(edition, |trie, names| trie.change(entry, names)),
            Call::Remove { edition, hash, key } => self.update(edition, |trie, names| trie.remove(hash, key, names)),
            Call::Drop { edition } => self.drop_edition(edition),
        }
    }

    fn format(&mut self, degree: u64, branches: u64, entries: u64, editions: u64) -> Result<Answer, Refusal> {
        if paper::row(degree).is_none() {
            return Err(number::BAD_DEGREE);
        }
        let within = |count: u64, limit: u64| (1..=limit).contains(&count);
        if !(within(branches, 1 << 20) && within(entries, 1 << 22) && within(editions, 1 << 12)) {
            return Err(number::BAD_SIZES);
        }
        *self = Shelf::formatted(degree, Cells { branches, entries }, editions as usize);
        Ok(Answer::done(0, 0, 0))
    }

    /// "In the lowest free slot."
    fn free_slot(&self) -> Result<usize, Refusal> {
        self.slots.iter().position(Option::is_none).ok_or(number::NO_SLOT)
    }

    /// 5, then 6, 7, 8, 9; the old edition is kept.
    fn update(&mut self, edition: u64, make: impl Fn(&T, &mut Names) -> Option<(T, Cells)>) -> Result<Answer, Refusal> {
        let mut names = std::mem::take(&mut self.names);
        let made = self.edition(edition).map(|trie| make(trie, &mut names));
        self.names = names;
        let (trie, taken) = made?.ok_or(number::ABSENT)?;
        let slot = self.free_slot()?;
        if taken.branches > self.room.branches - self.in_use.branches {
            return Err(number::NO_BRANCH_CELLS);
        }
        if taken.entries > self.room.entries - self.in_use.entries {
            return Err(number::NO_ENTRY_CELLS);
        }
        Ok(Answer::done(self.hold(slot, trie), taken.branches, taken.entries))
    }

    fn hold(&mut self, slot: usize, trie: T) -> u64 {
        each_cell(&trie, |cell, count| {
            if self.holders.len() <= cell {
                self.holders.resize(cell + 1, 0);
            }
            self.holders[cell] += 1;
            *count(&mut self.in_use) += u64::from(self.holders[cell] == 1);
        });
        self.slots[slot] = Some(trie);
        slot as u64
    }

    fn drop_edition(&mut self, edition: u64) -> Result<Answer, Refusal> {
        self.edition(edition)?;
        let before = self.in_use;
        let trie = self.slots[edition as usize].take().ok_or(number::NO_SUCH_EDITION)?;
        each_cell(&trie, |cell, count| {
            self.holders[cell] -= 1;
            *count(&mut self.in_use) -= u64::from(self.holders[cell] == 0);
        });
        let after = self.in_use;
        Ok(Answer::done(before.branches - after.branches, before.entries - after.entries, 0))
    }
}

/// Goes through the cells of a trie, each with the count of its kind.
fn each_cell<T: Trie>(trie: &T, mut visit: impl FnMut(Name, fn(&mut Cells) -> &mut u64)) {
    if let Some(root) = trie.root() {
        root.each_cell(&mut |cell| match cell {
            Cell::Branch(name) => visit(name, |cells| &mut cells.branches),
            Cell::Entry(item) => visit(item.cell, |cells| &mut cells.entries),
        });
    }
}

/// "Listing from a place writes hash, key, value for each entry while three words of room remain, and answers how many."
fn list(listing: &[Entry], place: u64, room: u64) -> Result<Answer, Refusal> {
    let size = listing.len() as u64;
    if place > size {
        return Err(number::BEYOND_THE_END);
    }
    if room < 3 && place < size {
        return Err(number::OUTPUT_TOO_SHORT);
    }
    let written = (room / 3).min(size - place);
    let listed = listing[place as usize..(place + written) as usize].to_vec();
    Ok(Answer { listed, ..Answer::done(written, 0, 0) })
}
