//! The calls that are compared, under the names and with the answers of document 01: a number, then up to three values.

/// An entry: hash, key and value, as a listing writes them.
#[derive(Clone, Copy, Debug, PartialEq, Eq)]
pub struct Entry {
    /// The hash, which says where in the trie the entry stands.
    pub hash: u64,
    /// The key. Two entries are the same key only if hash and key both agree.
    pub key: u64,
    /// The value.
    pub value: u64,
}

impl Entry {
    /// Whether the entry has this hash and this key.
    pub fn matches(&self, hash: u64, key: u64) -> bool {
        self.hash == hash && self.key == key
    }
}

/// How many cells of each kind.
#[derive(Clone, Copy, Debug, Default, PartialEq, Eq)]
pub struct Cells {
    /// Branch cells.
    pub branches: u64,
    /// Entry cells.
    pub entries: u64,
}

/// A call, without the arena that it is made on.
#[derive(Clone, Copy, Debug, PartialEq, Eq)]
#[allow(missing_docs)]
pub enum Call {
    Format { degree: u64, branches: u64, entries: u64, editions: u64 },
    NewEdition,
    Share { edition: u64 },
    Size { edition: u64 },
    InUse,
    Get { edition: u64, hash: u64, key: u64 },
    List { edition: u64, place: u64, room: u64 },
    Equal { first: u64, second: u64 },
    Insert { edition: u64, entry: Entry },
    Change { edition: u64, entry: Entry },
    Remove { edition: u64, hash: u64, key: u64 },
    Drop { edition: u64 },
}

impl Call {
    /// Whether the call makes an edition with other contents than the one it is made on.
    pub fn is_update(&self) -> bool {
        matches!(self, Call::Insert { .. } | Call::Change { .. } | Call::Remove { .. })
    }
}

/// Document 01's answer numbers, as far as a call without a slice of words can give them.
#[allow(missing_docs)]
pub mod number {
    pub const DONE: u64 = 0;
    pub const BAD_DEGREE: u64 = 1;
    pub const BAD_SIZES: u64 = 2;
    pub const DAMAGED: u64 = 4;
    pub const NO_SUCH_EDITION: u64 = 5;
    pub const ABSENT: u64 = 6;
    pub const NO_SLOT: u64 = 7;
    pub const NO_BRANCH_CELLS: u64 = 8;
    pub const NO_ENTRY_CELLS: u64 = 9;
    pub const OUTPUT_TOO_SHORT: u64 = 10;
    pub const BEYOND_THE_END: u64 = 11;
}

/// What a call answers: document 01's number and three values, 0 where there is none; and the entries that a listing
/// writes.
#[derive(Clone, Debug, Default, PartialEq, Eq)]
pub struct Answer {
    /// Document 01's number.
    pub number: u64,
    /// The values.
    pub values: [u64; 3],
    /// The entries written, for a listing.
    pub listed: Vec<Entry>,
}

impl Answer {
    /// An answer with number 0.
    pub fn done(a: u64, b: u64, c: u64) -> Answer {
        Answer { values: [a, b, c], ..Answer::default() }
    }

    /// A refusal: its number, and zeros.
    pub fn refused(number: u64) -> Answer {
        Answer { number, ..Answer::default() }
    }
}
