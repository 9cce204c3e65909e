//! An arena and its calls.
use crate::raw::{self, Answer};
use crate::{Entries, OwnPage, Refusal, Sizes, Words};
use std::io;
use std::ops::{Deref, DerefMut};

/// The number of an edition: the slot that holds it.
///
/// A number means the edition last put in that slot. Any number may be tried: a call on one that is not held is
/// refused.
#[derive(Clone, Copy, Debug, PartialEq, Eq, Hash, PartialOrd, Ord)]
pub struct Edition(pub u64);

impl Edition {
    /// The slot's number.
    pub fn number(self) -> u64 {
        self.0
    }
}

impl std::fmt::Display for Edition {
    fn fmt(&self, out: &mut std::fmt::Formatter<'_>) -> std::fmt::Result {
        write!(out, "edition {}", self.0)
    }
}

/// An element of a study's header and its place on disk. Two entries are of one element if hash and key both agree.
#[derive(Clone, Copy, Debug, PartialEq, Eq, Hash)]
pub struct Entry {
    /// The hash, which the caller chooses.
    pub hash: u64,
    /// The key.
    pub key: u64,
    /// The value.
    pub value: u64,
}

/// Numbers of cells of each kind.
#[derive(Clone, Copy, Debug, PartialEq, Eq, Hash, Default)]
pub struct Cells {
    /// Branch cells.
    pub branches: u64,
    /// Entry cells.
    pub entries: u64,
}

/// What an update made: an edition, and the cells it took. All its other cells it shares with the edition it was made
/// of.
#[derive(Clone, Copy, Debug, PartialEq, Eq, Hash)]
pub struct Update {
    /// The new edition; the old one is still held.
    pub edition: Edition,
    /// The cells taken.
    pub taken: Cells,
}

/// The values of an answer that is done, or the refusal.
#[inline]
pub(crate) fn done(answer: Answer) -> Result<Answer, Refusal> {
    match answer.number {
        0 => Ok(answer),
        // The library gives no other numbers; were there one, the words could not be relied on.
        number => Err(Refusal::from_number(number).unwrap_or(Refusal::Damaged)),
    }
}

#[inline]
fn edition(answer: Answer) -> Result<Edition, Refusal> {
    done(answer).map(|answer| Edition(answer.a))
}

#[inline]
fn cells(answer: Answer) -> Result<Cells, Refusal> {
    done(answer).map(|answer| Cells { branches: answer.a, entries: answer.b })
}

#[inline]
fn update(answer: Answer) -> Result<Update, Refusal> {
    done(answer)
        .map(|answer| Update { edition: Edition(answer.a), taken: Cells { branches: answer.b, entries: answer.c } })
}

/// Editions in an arena of words: owned ([`Words`], or a `Vec`) or lent (`&mut [u64]`, or `&[u64]` to look only).
///
/// A method that answers a [`Refusal`] is one call of the proved library; [`sizes`](Arena::sizes),
/// [`entries`](Arena::entries) and [`held`](Arena::held) are made of such calls. None has a precondition: on any words
/// a call ends, stays inside them, and refuses wrong input with nothing altered. What is promised of each on a sound
/// arena, which is what calls on a formatted arena keep, is in `docs/PROMISES.md`.
///
/// Every call but `format` is refused with [`Refusal::Damaged`] where the header is wrong, and every call on an edition
/// with [`Refusal::NoSuchEdition`] where that is not held. What else a call is refused with is said at the call.
///
/// ```
/// use shelf::{Arena, Refusal, Sizes};
///
/// let sizes = Sizes { degree: 16, branches: 100, entries: 100, editions: 8 };
/// let mut arena = Arena::owned(sizes)?;
/// let empty = arena.new_edition()?;
/// let first = arena.insert(empty, 0x26, 1, 10)?.edition;
/// let second = arena.change(first, 0x26, 1, 11)?.edition;
///
/// // The older edition answers as before.
/// assert_eq!(arena.get(first, 0x26, 1), Ok(10));
/// assert_eq!(arena.get(second, 0x26, 1), Ok(11));
/// assert_eq!(arena.get(empty, 0x26, 1), Err(Refusal::Absent));
/// # Ok::<(), Box<dyn std::error::Error>>(())
/// ```
#[derive(Clone, Copy, Debug)]
pub struct Arena<W> {
    words: W,
}

impl Arena<Words> {
    /// A formatted arena of its own words, which are taken from the system once. Nothing is allocated after this, by any
    /// call.
    pub fn owned(sizes: Sizes) -> io::Result<Self> {
        let refused = |why: Refusal| io::Error::new(io::ErrorKind::InvalidInput, why);
        let words = Words::new(sizes.words().map_err(refused)?)?;
        Arena::formatted(words, sizes).map_err(refused)
    }
}

impl<W: Deref<Target = [u64]>> Arena<W> {
    /// An arena over words as they are, which are those of an arena that was formatted before. Any words are taken.
    ///
    /// ```
    /// use shelf::{Arena, Refusal, Sizes};
    ///
    /// let sizes = Sizes { degree: 16, branches: 10, entries: 10, editions: 2 };
    /// let mut words = vec![0; sizes.words()?];
    /// let mut arena = Arena::formatted(&mut words[..], sizes)?;
    /// let edition = arena.new_edition()?;
    ///
    /// // The words were only lent. Whoever is to look and not to write is lent them so.
    /// let looking = Arena::over(&words[..]);
    /// assert_eq!(looking.size(edition), Ok(0));
    /// # Ok::<(), Refusal>(())
    /// ```
    pub fn over(words: W) -> Self {
        Arena { words }
    }

    /// The words.
    pub fn words(&self) -> &[u64] {
        &self.words
    }

    /// The words, given back.
    pub fn into_words(self) -> W {
        self.words
    }

    /// The sizes that the header names.
    pub fn sizes(&self) -> Result<Sizes, Refusal> {
        // Any call reads the header first; this one does nothing else. A slice with a right header has more than 12
        // words.
        self.in_use()?;
        let words = self.words();
        Ok(Sizes { degree: words[1], branches: words[2], entries: words[3], editions: words[4] })
    }

    /// Whether the arena is sound, by a test of every word; on `Ok` the work words hold each branch's, then each
    /// entry's count. It takes [`Sizes::work_words`] work words: refused with [`Refusal::WorkTooShort`] if there are
    /// fewer. If the arena is not sound it is refused with [`Refusal::Damaged`], and the work words are 0.
    ///
    /// ```
    /// use shelf::{Arena, Refusal, Sizes};
    ///
    /// let sizes = Sizes { degree: 16, branches: 10, entries: 10, editions: 2 };
    /// let mut arena = Arena::formatted(vec![0; sizes.words()?], sizes)?;
    /// let mut work = vec![0; sizes.work_words()];
    /// assert_eq!(arena.check(&mut work), Ok(()));
    ///
    /// let mut words = arena.into_words();
    /// words[10] += 1;
    /// assert_eq!(Arena::over(words).check(&mut work), Err(Refusal::Damaged));
    /// # Ok::<(), Refusal>(())
    /// ```
    pub fn check(&self, work: &mut [u64]) -> Result<(), Refusal> {
        done(raw::check(&self.words, work)).map(|_| ())
    }

    /// How many entries an edition has.
    pub fn size(&self, edition: Edition) -> Result<u64, Refusal> {
        done(raw::size(&self.words, edition.0)).map(|answer| answer.a)
    }

    /// How many cells of each kind are in use: those that held editions reach, each once.
    pub fn in_use(&self) -> Result<Cells, Refusal> {
        cells(raw::in_use(&self.words))
    }

    /// The value of a hash and a key in an edition. Refused with [`Refusal::Absent`] if they are not there.
    #[inline]
    pub fn get(&self, edition: Edition, hash: u64, key: u64) -> Result<u64, Refusal> {
        done(raw::get(&self.words, edition.0, hash, key)).map(|answer| answer.a)
    }

    /// Writes hash, key and value of each entry from a place in the listing on, while three words of room remain.
    /// Answers how many entries were written; the remaining room is left. Refused with [`Refusal::BeyondTheEnd`] if the
    /// place is above the size, and with [`Refusal::OutputTooShort`] if it is below and there is no room for one entry.
    pub fn list(&self, edition: Edition, place: u64, out: &mut [u64]) -> Result<u64, Refusal> {
        done(raw::list(&self.words, edition.0, place, out)).map(|answer| answer.a)
    }

    /// The entries of an edition in the order of its listing, by pages of 256.
    ///
    /// ```
    /// use shelf::{Arena, Entry, Sizes};
    ///
    /// let mut arena = Arena::owned(Sizes { degree: 16, branches: 100, entries: 100, editions: 8 })?;
    /// let mut edition = arena.new_edition()?;
    /// for (hash, key, value) in [(0x26, 1, 10), (0x16, 2, 20), (0x42, 3, 30)] {
    ///     edition = arena.insert(edition, hash, key, value)?.edition;
    /// }
    /// let entries: Vec<Entry> = arena.entries(edition)?.collect::<Result<_, _>>()?;
    /// assert_eq!(entries[0], Entry { hash: 0x42, key: 3, value: 30 });
    /// assert_eq!(entries.len(), 3);
    /// # Ok::<(), Box<dyn std::error::Error>>(())
    /// ```
    pub fn entries(&self, edition: Edition) -> Result<Entries<'_, OwnPage>, Refusal> {
        let page: OwnPage = [0; size_of::<OwnPage>() / size_of::<u64>()];
        Ok(Entries::new(&self.words, edition, self.size(edition)?, page))
    }

    /// The same by pages that are lent, for an edition of many thousands of entries: the call behind a page walks past
    /// all entries before it, so that the fewer the pages the better. A page of under three words is refused by the
    /// first item with [`Refusal::OutputTooShort`].
    ///
    /// ```
    /// use shelf::{Arena, Sizes};
    ///
    /// let mut arena = Arena::owned(Sizes { degree: 16, branches: 100, entries: 100, editions: 8 })?;
    /// let empty = arena.new_edition()?;
    /// let edition = arena.insert(empty, 0x26, 1, 10)?.edition;
    /// let mut page = vec![0; 3 * 10_000];
    /// assert_eq!(arena.entries_by(edition, &mut page)?.count(), 1);
    /// # Ok::<(), Box<dyn std::error::Error>>(())
    /// ```
    pub fn entries_by<'a>(
        &'a self,
        edition: Edition,
        page: &'a mut [u64],
    ) -> Result<Entries<'a, &'a mut [u64]>, Refusal> {
        Ok(Entries::new(&self.words, edition, self.size(edition)?, page))
    }

    /// The numbers of the editions that are held, ascending; none where the header is wrong.
    pub fn held(&self) -> impl Iterator<Item = Edition> {
        let slots = self.sizes().map_or(0, |sizes| sizes.editions);
        (0..slots).map(Edition).filter(|edition| self.size(*edition).is_ok())
    }

    /// Whether two editions have the same entries with the same values.
    pub fn equal(&self, first: Edition, second: Edition) -> Result<bool, Refusal> {
        done(raw::equal(&self.words, first.0, second.0)).map(|answer| answer.a == 1)
    }
}

impl<W: DerefMut<Target = [u64]>> Arena<W> {
    /// An arena of these sizes in the words, by [`format`](Arena::format).
    pub fn formatted(words: W, sizes: Sizes) -> Result<Self, Refusal> {
        let mut arena = Arena { words };
        arena.format(sizes)?;
        Ok(arena)
    }

    /// Formats the words: no edition is held then, and every cell is free. Words beyond [`Sizes::words`] are never
    /// touched, by this call or any other. Refused with [`Refusal::BadDegree`], [`Refusal::BadSizes`] or
    /// [`Refusal::SliceTooShort`].
    pub fn format(&mut self, sizes: Sizes) -> Result<(), Refusal> {
        let Sizes { degree, branches, entries, editions } = sizes;
        done(raw::format(&mut self.words, degree, branches, entries, editions)).map(|_| ())
    }

    /// An edition without entries, in the lowest free slot. It takes no cell. Refused with [`Refusal::NoSlot`] if every
    /// slot is held, as are the four calls that follow.
    pub fn new_edition(&mut self) -> Result<Edition, Refusal> {
        edition(raw::new_edition(&mut self.words))
    }

    /// The same edition once more, in the lowest free slot. It takes no cell, and each of the two is dropped by itself.
    pub fn share(&mut self, of: Edition) -> Result<Edition, Refusal> {
        edition(raw::share(&mut self.words, of.0))
    }

    /// An edition with an entry put in it, in the lowest free slot; the old one stays as it is. A value that stood
    /// under the hash and the key is replaced. Refused with [`Refusal::NoBranchCells`] or [`Refusal::NoEntryCells`] if
    /// it needs more of them than are free.
    #[inline]
    pub fn insert(&mut self, into: Edition, hash: u64, key: u64, value: u64) -> Result<Update, Refusal> {
        update(raw::insert(&mut self.words, into.0, hash, key, value))
    }

    /// An insert where the hash and the key are there already. Refused with [`Refusal::Absent`] if they are not, else
    /// as an insert is.
    pub fn change(&mut self, of: Edition, hash: u64, key: u64, value: u64) -> Result<Update, Refusal> {
        update(raw::change(&mut self.words, of.0, hash, key, value))
    }

    /// An edition with an entry taken out, in the lowest free slot; the old one stays as it is. Refused with
    /// [`Refusal::Absent`] if the hash and the key are not there, else as an insert is.
    #[inline]
    pub fn remove(&mut self, from: Edition, hash: u64, key: u64) -> Result<Update, Refusal> {
        update(raw::remove(&mut self.words, from.0, hash, key))
    }

    /// Lets an edition go, and every cell that no other edition reaches: answers how many were freed. Its number may
    /// then be given to another.
    #[inline]
    pub fn drop(&mut self, edition: Edition) -> Result<Cells, Refusal> {
        cells(raw::drop(&mut self.words, edition.0))
    }
}
