//! How large an arena is.
use crate::Refusal;

/// The degree and the room of an arena, as [`format`](crate::Arena::format) takes them.
#[derive(Clone, Copy, Debug, PartialEq, Eq)]
pub struct Sizes {
    /// 2, 4, 8, 16, 32 or 64: how many children a branch has room for.
    pub degree: u64,
    /// Branch cells, 1 to [`Sizes::MOST_BRANCHES`].
    pub branches: u64,
    /// Entry cells, 1 to [`Sizes::MOST_ENTRIES`].
    pub entries: u64,
    /// Edition slots, 1 to [`Sizes::MOST_EDITIONS`].
    pub editions: u64,
}

/// Words of the header, which the slots follow.
const HEADER: u64 = 12;

impl Sizes {
    /// The most branch cells.
    pub const MOST_BRANCHES: u64 = 1_048_576;
    /// The most entry cells.
    pub const MOST_ENTRIES: u64 = 4_194_304;
    /// The most editions held at once.
    pub const MOST_EDITIONS: u64 = 4_096;
    /// Words of a slot: held, root, size.
    pub const SLOT_WORDS: u64 = 3;
    /// Words of an entry cell: count, chain length, next, hash, key, value.
    pub const ENTRY_WORDS: u64 = 6;

    /// Words of a branch cell: count, depth, bitmap, and a word for each child.
    pub fn branch_words(&self) -> u64 {
        self.degree.saturating_add(3)
    }

    /// How many words an arena of these sizes takes, or the refusal that `format` has for them.
    ///
    /// ```
    /// use shelf::Sizes;
    /// let largest = Sizes { degree: 64, branches: 1_048_576, entries: 4_194_304, editions: 4_096 };
    /// assert_eq!(largest.words(), Ok(95_432_716));
    /// ```
    pub fn words(&self) -> Result<usize, Refusal> {
        if !matches!(self.degree, 2 | 4 | 8 | 16 | 32 | 64) {
            return Err(Refusal::BadDegree);
        }
        let within = |number: u64, most: u64| (1..=most).contains(&number);
        if !within(self.branches, Self::MOST_BRANCHES)
            || !within(self.entries, Self::MOST_ENTRIES)
            || !within(self.editions, Self::MOST_EDITIONS)
        {
            return Err(Refusal::BadSizes);
        }
        let words = HEADER
            + Self::SLOT_WORDS * self.editions
            + self.branch_words() * self.branches
            + Self::ENTRY_WORDS * self.entries;
        usize::try_from(words).map_err(|_| Refusal::SliceTooShort)
    }

    /// How many work words a check takes: one for each cell.
    pub fn work_words(&self) -> usize {
        self.branches.saturating_add(self.entries) as usize
    }
}
