//! The calls that are made on a damaged arena, and what each may answer.
use shelf::{Arena, Edition, Refusal, Sizes};

/// A call but check, whose work words are looked at by themselves.
#[derive(Clone, Copy, Debug)]
#[allow(missing_docs)]
pub enum Call {
    Format(Sizes),
    NewEdition,
    Share(Edition),
    Size(Edition),
    InUse,
    Get(Edition, u64, u64),
    List(Edition, u64),
    Equal(Edition, Edition),
    Insert(Edition, u64, u64, u64),
    Change(Edition, u64, u64, u64),
    Remove(Edition, u64, u64),
    Drop(Edition),
}

impl Call {
    /// Makes the call, a listing into `out`. Answers the first value, or the refusal.
    pub fn make(self, words: &mut [u64], out: &mut [u64]) -> Result<u64, Refusal> {
        let mut arena = Arena::over(words);
        match self {
            Call::Format(sizes) => arena.format(sizes).map(|()| 0),
            Call::NewEdition => arena.new_edition().map(Edition::number),
            Call::Share(edition) => arena.share(edition).map(Edition::number),
            Call::Size(edition) => arena.size(edition),
            Call::InUse => arena.in_use().map(|cells| cells.branches),
            Call::Get(edition, hash, key) => arena.get(edition, hash, key),
            Call::List(edition, place) => arena.list(edition, place, out),
            Call::Equal(first, second) => arena.equal(first, second).map(u64::from),
            Call::Insert(edition, hash, key, value) => made(arena.insert(edition, hash, key, value)),
            Call::Change(edition, hash, key, value) => made(arena.change(edition, hash, key, value)),
            Call::Remove(edition, hash, key) => made(arena.remove(edition, hash, key)),
            Call::Drop(edition) => arena.drop(edition).map(|cells| cells.branches),
        }
    }

    /// What the call is called.
    pub fn name(self) -> &'static str {
        match self {
            Call::Format(_) => "format",
            Call::NewEdition => "new edition",
            Call::Share(_) => "share",
            Call::Size(_) => "size",
            Call::InUse => "in use",
            Call::Get(..) => "get",
            Call::List(..) => "list",
            Call::Equal(..) => "equal",
            Call::Insert(..) => "insert",
            Call::Change(..) => "change",
            Call::Remove(..) => "remove",
            Call::Drop(_) => "drop",
        }
    }

    /// Whether the call writes no word of the arena, whatever it answers.
    pub fn only_reads(self) -> bool {
        matches!(self, Call::Size(_) | Call::InUse | Call::Get(..) | Call::List(..) | Call::Equal(..))
    }

    /// The editions that the call names.
    pub fn editions(self) -> Vec<Edition> {
        match self {
            Call::Format(_) | Call::NewEdition | Call::InUse => vec![],
            Call::Share(edition) | Call::Size(edition) | Call::Drop(edition) => vec![edition],
            Call::Get(edition, ..) | Call::List(edition, _) | Call::Remove(edition, ..) => vec![edition],
            Call::Insert(edition, ..) | Call::Change(edition, ..) => vec![edition],
            Call::Equal(first, second) => vec![first, second],
        }
    }

    /// Whether the table has this number for the call, 4 and 5 aside.
    pub fn may_answer(self, why: Refusal) -> bool {
        match why {
            Refusal::Absent => matches!(self, Call::Get(..) | Call::Change(..) | Call::Remove(..)),
            Refusal::NoSlot => self.makes_an_edition(),
            Refusal::NoBranchCells | Refusal::NoEntryCells => self.takes_cells(),
            Refusal::OutputTooShort | Refusal::BeyondTheEnd => matches!(self, Call::List(..)),
            _ => false,
        }
    }

    fn takes_cells(self) -> bool {
        matches!(self, Call::Insert(..) | Call::Change(..) | Call::Remove(..))
    }

    fn makes_an_edition(self) -> bool {
        self.takes_cells() || matches!(self, Call::NewEdition | Call::Share(_))
    }
}

fn made(update: Result<shelf::Update, Refusal>) -> Result<u64, Refusal> {
    update.map(|update| update.edition.number())
}
