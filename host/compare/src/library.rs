//! The library as one side of the comparison.
use oracle::calls::{Answer, Call, Entry};
use shelf::{Arena, Cells, Edition, Refusal, Sizes, Update};

/// A side that is held to the crate: the library, or in a test one with a fault.
pub trait Side {
    /// Makes a call, and answers it or says what an answer cannot show.
    fn call(&mut self, call: &Call) -> Result<Answer, String>;

    /// Whether the arena is sound, by the side's own check.
    fn is_sound(&mut self) -> bool;

    /// The words of the arena.
    fn words(&self) -> &[u64];
}

/// What a word is that no call has written.
const UNTOUCHED: u64 = 0x5e1f_0000_5e1f_0000;

/// Words beyond the total, which no call touches.
const BEYOND: usize = 4;

/// The library, with an arena that a format takes anew.
pub struct Library {
    arena: Arena<Vec<u64>>,
}

impl Default for Library {
    fn default() -> Self {
        Library { arena: Arena::over(Vec::new()) }
    }
}

impl Library {
    fn answer(&mut self, call: &Call, out: &mut [u64]) -> Result<[u64; 3], Refusal> {
        let arena = &mut self.arena;
        match *call {
            Call::Format { degree, branches, entries, editions } => {
                self.format(Sizes { degree, branches, entries, editions }).map(|()| [0; 3])
            }
            Call::NewEdition => arena.new_edition().map(made),
            Call::Share { edition } => arena.share(Edition(edition)).map(made),
            Call::Size { edition } => arena.size(Edition(edition)).map(|size| [size, 0, 0]),
            Call::InUse => arena.in_use().map(cells),
            Call::Get { edition, hash, key } => arena.get(Edition(edition), hash, key).map(|value| [value, 0, 0]),
            Call::List { edition, place, .. } => arena.list(Edition(edition), place, out).map(|count| [count, 0, 0]),
            Call::Equal { first, second } => {
                arena.equal(Edition(first), Edition(second)).map(|is_equal| [is_equal.into(), 0, 0])
            }
            Call::Insert { edition, entry: Entry { hash, key, value } } => {
                arena.insert(Edition(edition), hash, key, value).map(updated)
            }
            Call::Change { edition, entry: Entry { hash, key, value } } => {
                arena.change(Edition(edition), hash, key, value).map(updated)
            }
            Call::Remove { edition, hash, key } => arena.remove(Edition(edition), hash, key).map(updated),
            Call::Drop { edition } => arena.drop(Edition(edition)).map(cells),
        }
    }

    /// Formats an arena of these sizes, in other words than before; sizes that no arena has are tried on the one that there is.
    fn format(&mut self, sizes: Sizes) -> Result<(), Refusal> {
        if let Ok(total) = sizes.words() {
            self.arena = Arena::over(vec![UNTOUCHED; total + BEYOND]);
        }
        self.arena.format(sizes)
    }
}

fn made(edition: Edition) -> [u64; 3] {
    [edition.number(), 0, 0]
}

fn cells(cells: Cells) -> [u64; 3] {
    [cells.branches, cells.entries, 0]
}

fn updated(update: Update) -> [u64; 3] {
    [update.edition.number(), update.taken.branches, update.taken.entries]
}

impl Side for Library {
    fn call(&mut self, call: &Call) -> Result<Answer, String> {
        let room = if let Call::List { room, .. } = call { *room as usize } else { 0 };
        let mut out = vec![UNTOUCHED; room];
        let (number, values) = match self.answer(call, &mut out) {
            Ok(values) => (0, values),
            Err(why) => (why.number(), [0; 3]),
        };
        let is_list = matches!(call, Call::List { .. }) && number == 0;
        let count = if is_list { values[0] as usize } else { 0 };
        let Some((written, left)) = count.checked_mul(3).and_then(|end| out.split_at_checked(end)) else {
            return Err(format!("the library lists {count} entries in {room} words of room"));
        };
        if left.iter().any(|word| *word != UNTOUCHED) {
            return Err("the library writes to the room that remains".to_string());
        }
        let entry = |words: &[u64]| Entry { hash: words[0], key: words[1], value: words[2] };
        Ok(Answer { number, values, listed: written.chunks_exact(3).map(entry).collect() })
    }

    fn is_sound(&mut self) -> bool {
        let Ok(sizes) = self.arena.sizes() else { return false };
        let is_beyond_untouched = self.arena.words().iter().rev().take(BEYOND).all(|word| *word == UNTOUCHED);
        is_beyond_untouched && self.arena.check(&mut vec![0; sizes.work_words()]).is_ok()
    }

    fn words(&self) -> &[u64] {
        self.arena.words()
    }
}
