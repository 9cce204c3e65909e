//! The entries of an edition, by pages.
use crate::{Edition, Entry, Refusal, raw};
use std::iter::FusedIterator;

/// Words of an entry in a listing: hash, key, value.
const LISTED: usize = 3;

/// The page of [`Arena::entries`](crate::Arena::entries): 256 entries, about what the headers of a study have.
pub type OwnPage = [u64; 256 * LISTED];

/// The entries of an edition in the order of its listing: see [`Arena::entries`](crate::Arena::entries) and
/// [`Arena::entries_by`](crate::Arena::entries_by).
///
/// Each page is one call of the library, which walks past the entries before the page to come to its place. The page is
/// part of this value or lent to it, so nothing is allocated.
///
/// On a sound arena no call is refused and every item is `Ok`. On a damaged one the last item is the first refusal,
/// which is [`Refusal::Damaged`] where the edition shows fewer entries than its size.
#[derive(Debug)]
pub struct Entries<'a, P> {
    arena: &'a [u64],
    edition: Edition,
    /// Entries that the library has not been asked for yet: those from `place` on.
    left: u64,
    place: u64,
    page: P,
    /// Entries of the page that were given out, and that there are.
    read: usize,
    written: usize,
}

impl<'a, P: AsRef<[u64]> + AsMut<[u64]>> Entries<'a, P> {
    pub(crate) fn new(arena: &'a [u64], edition: Edition, size: u64, page: P) -> Self {
        Entries { arena, edition, left: size, place: 0, page, read: 0, written: 0 }
    }

    /// Reads the next page. None is left after a refusal.
    fn turn(&mut self) -> Result<(), Refusal> {
        let left = std::mem::take(&mut self.left);
        let answer = raw::list(self.arena, self.edition.number(), self.place, self.page.as_mut());
        let written = crate::done(answer)?.a;
        let room = self.page.as_ref().len() / LISTED;
        if written == 0 || written > left || written > room as u64 {
            return Err(Refusal::Damaged);
        }
        self.place += written;
        self.left = left - written;
        self.read = 0;
        self.written = written as usize;
        Ok(())
    }
}

impl<P: AsRef<[u64]> + AsMut<[u64]>> Iterator for Entries<'_, P> {
    type Item = Result<Entry, Refusal>;

    fn next(&mut self) -> Option<Self::Item> {
        if self.read == self.written {
            if self.left == 0 {
                return None;
            }
            if let Err(why) = self.turn() {
                return Some(Err(why));
            }
        }
        let at = LISTED * self.read;
        self.read += 1;
        let page = self.page.as_ref();
        Some(Ok(Entry { hash: page[at], key: page[at + 1], value: page[at + 2] }))
    }
}

impl<P: AsRef<[u64]> + AsMut<[u64]>> FusedIterator for Entries<'_, P> {}
