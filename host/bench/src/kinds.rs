//! What is measured: the kinds of operations, by name, and the entries that each goes over.
use crate::keys::{BATCH, Keys};
use shelf::Entry;

/// A kind of operation.
#[derive(Clone, Copy, Debug, PartialEq, Eq, PartialOrd, Ord)]
pub enum Kind {
    /// Lookup of a key that is there.
    GetHit,
    /// Lookup of a key that is not there.
    GetMiss,
    /// Insert of a new key, with the old edition kept.
    InsertKept,
    /// Insert of a new key, with the old edition dropped.
    InsertDropped,
    /// Insert of a key that is there with another value, with the old edition dropped.
    Replace,
    /// Removal of a key that is there, with the old edition dropped.
    Remove,
    /// Listing of a whole edition, counted by entries.
    List,
    /// Check of a whole arena, counted by cells.
    Check,
}

impl Kind {
    /// Every kind, in the order of tables.
    pub const ALL: [Kind; 8] = [
        Kind::GetHit,
        Kind::GetMiss,
        Kind::InsertKept,
        Kind::InsertDropped,
        Kind::Replace,
        Kind::Remove,
        Kind::List,
        Kind::Check,
    ];

    /// The name in options, which behind `crate_` or `library_` is that of the measured function.
    pub fn name(self) -> &'static str {
        match self {
            Kind::GetHit => "get_hit",
            Kind::GetMiss => "get_miss",
            Kind::InsertKept => "insert_kept",
            Kind::InsertDropped => "insert_dropped",
            Kind::Replace => "replace",
            Kind::Remove => "remove",
            Kind::List => "list",
            Kind::Check => "check",
        }
    }

    /// What a table calls it.
    pub fn title(self) -> &'static str {
        match self {
            Kind::GetHit => "get, hit",
            Kind::GetMiss => "get, miss",
            Kind::InsertKept => "insert, old kept",
            Kind::InsertDropped => "insert, old dropped",
            Kind::Replace => "replace, old dropped",
            Kind::Remove => "remove, old dropped",
            Kind::List => "list, per entry",
            Kind::Check => "check, per cell",
        }
    }

    /// The entries of a pass. The kept editions are few, so that their passes go through the added entries in turn.
    pub fn entries(self, keys: &Keys, pass: usize) -> &[Entry] {
        match self {
            Kind::GetHit => &keys.hits,
            Kind::GetMiss => &keys.misses,
            Kind::InsertDropped | Kind::Remove => &keys.added,
            Kind::Replace => &keys.replaced,
            Kind::InsertKept => {
                let first = BATCH * (pass % keys.added.len().div_ceil(BATCH));
                &keys.added[first..keys.added.len().min(first + BATCH)]
            }
            Kind::List | Kind::Check => &[],
        }
    }
}
