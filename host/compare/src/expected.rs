//! What each call has to answer: the crate's maps in slots, and document 01's rules over them.
//!
//! The crate says what an edition holds, lists, finds and equals, and by its addresses which cells an update takes and a drop
//! frees. The edition's number, the room and the refusals are document 01's.
use crate::cells;
use crate::edition::Edition;
use oracle::calls::{Answer, Call, Cells, Entry, number};
use oracle::rpds_trie::{Key, Map};

type Refusal = u64;

/// The editions, each a map of the crate.
#[derive(Default)]
pub struct Expected {
    degree: u8,
    room: Cells,
    slots: Vec<Option<Edition>>,
    in_use: Cells,
    copied: u64,
}

impl Expected {
    /// What a call has to answer.
    pub fn call(&mut self, call: &Call) -> Answer {
        self.answer(call).unwrap_or_else(Answer::refused)
    }

    /// How many editions there is room for.
    pub fn slots(&self) -> usize {
        self.slots.len()
    }

    /// The numbers of the held editions, ascending.
    pub fn held(&self) -> impl Iterator<Item = u64> {
        (0..).zip(&self.slots).filter(|(_, slot)| slot.is_some()).map(|(number, _)| number)
    }

    /// How many entries an edition has; 0 where it is not held.
    pub fn size(&self, edition: u64) -> u64 {
        self.edition(edition).map_or(0, |held| held.map.size() as u64)
    }

    /// The cells in use, as the calls have taken and freed them.
    pub fn in_use(&self) -> Cells {
        self.in_use
    }

    /// The cells in use, counted anew over all that is held.
    pub fn in_use_counted(&self) -> Cells {
        cells::distinct(self.slots.iter().flatten())
    }

    fn edition(&self, edition: u64) -> Result<&Edition, Refusal> {
        let slot = usize::try_from(edition).ok().and_then(|at| self.slots.get(at));
        slot.and_then(Option::as_ref).ok_or(number::NO_SUCH_EDITION)
    }

    fn answer(&mut self, call: &Call) -> Result<Answer, Refusal> {
        match *call {
            Call::Format { degree, branches, entries, editions } => self.format(degree, branches, entries, editions),
            Call::NewEdition => self.hold(Edition::empty(self.degree), Cells::default()),
            Call::Share { edition } => self.hold(self.edition(edition)?.clone(), Cells::default()),
            Call::Size { edition } => Ok(Answer::done(self.edition(edition)?.map.size() as u64, 0, 0)),
            Call::InUse => Ok(Answer::done(self.in_use.branches, self.in_use.entries, 0)),
            Call::Get { edition, hash, key } => {
                let value = self.edition(edition)?.map.get(&Key { hash, key }).ok_or(number::ABSENT)?;
                Ok(Answer::done(*value, 0, 0))
            }
            Call::List { edition, place, room } => list(&self.edition(edition)?.map, place, room),
            Call::Equal { first, second } => {
                let is_equal = self.edition(first)?.map == self.edition(second)?.map;
                Ok(Answer::done(is_equal.into(), 0, 0))
            }
            Call::Insert { edition, entry: Entry { hash, key, value } } => {
                let made = self.edition(edition)?.map.insert(Key { hash, key }, value);
                self.update(edition, made, hash)
            }
            Call::Change { edition, entry: Entry { hash, key, value } } => {
                let mut made = self.edition(edition)?.map.clone();
                *made.get_mut(&Key { hash, key }).ok_or(number::ABSENT)? = value;
                self.update(edition, made, hash)
            }
            Call::Remove { edition, hash, key } => {
                let old = &self.edition(edition)?.map;
                let made = old.remove(&Key { hash, key });
                // the crate answers an equal map where nothing was there
                if made.size() == old.size() {
                    return Err(number::ABSENT);
                }
                self.update(edition, made, hash)
            }
            Call::Drop { edition } => self.let_go(edition),
        }
    }

    fn format(&mut self, degree: u64, branches: u64, entries: u64, editions: u64) -> Result<Answer, Refusal> {
        let sizes = shelf::Sizes { degree, branches, entries, editions };
        sizes.words().map_err(shelf::Refusal::number)?;
        let slots = (0..editions).map(|_| None).collect();
        *self = Expected { degree: degree as u8, room: Cells { branches, entries }, slots, ..Expected::default() };
        Ok(Answer::done(0, 0, 0))
    }

    /// The map that an update of a hash made of an edition, held where there are cells enough.
    fn update(&mut self, edition: u64, map: Map, hash: u64) -> Result<Answer, Refusal> {
        let mut copied = self.copied;
        let old = self.edition(edition)?;
        let made = old.updated(map, hash, &mut copied);
        let taken = cells::only_in(&made, &[old]);
        self.copied = copied;
        self.hold(made, taken)
    }

    /// "The result in the lowest free slot": 7, 8, 9 in this order.
    fn hold(&mut self, edition: Edition, taken: Cells) -> Result<Answer, Refusal> {
        let slot = self.slots.iter().position(Option::is_none).ok_or(number::NO_SLOT)?;
        let in_use =
            Cells { branches: self.in_use.branches + taken.branches, entries: self.in_use.entries + taken.entries };
        if in_use.branches > self.room.branches {
            return Err(number::NO_BRANCH_CELLS);
        }
        if in_use.entries > self.room.entries {
            return Err(number::NO_ENTRY_CELLS);
        }
        self.in_use = in_use;
        self.slots[slot] = Some(edition);
        Ok(Answer::done(slot as u64, taken.branches, taken.entries))
    }

    /// "Frees the slot and every cell no longer reached, and reports both numbers freed."
    fn let_go(&mut self, edition: u64) -> Result<Answer, Refusal> {
        self.edition(edition)?;
        let dropped = self.slots[edition as usize].take().ok_or(number::NO_SUCH_EDITION)?;
        let others: Vec<&Edition> = self.slots.iter().flatten().collect();
        let freed = cells::only_in(&dropped, &others);
        self.in_use.branches -= freed.branches;
        self.in_use.entries -= freed.entries;
        Ok(Answer::done(freed.branches, freed.entries, 0))
    }
}

/// 11, then 10; else "hash, key, value for each entry while three words of room remain".
fn list(map: &Map, place: u64, room: u64) -> Result<Answer, Refusal> {
    let size = map.size() as u64;
    if place > size {
        return Err(number::BEYOND_THE_END);
    }
    if place < size && room < 3 {
        return Err(number::OUTPUT_TOO_SHORT);
    }
    let entry = |(key, value): (&Key, &u64)| Entry { hash: key.hash, key: key.key, value: *value };
    let listed: Vec<Entry> = map.iter().skip(place as usize).take((room / 3) as usize).map(entry).collect();
    Ok(Answer { number: number::DONE, values: [listed.len() as u64, 0, 0], listed })
}
