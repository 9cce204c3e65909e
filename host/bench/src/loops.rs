//! The measured loops.
//!
//! Each is written once for both sides, and stands in a function of its own for either: `crate_get_hit`,
//! `library_get_hit` and so on. These are never inlined, so that a counter of instructions can be switched on for one
//! of them by its name.
use crate::kinds::Kind;
use crate::sides::{Crate, Library, Side, Stand};
use shelf::{Entry, Refusal};

/// A measured loop: it goes over the entries once, or lists or checks once. It answers a sum over what it read, by
/// which the two sides are compared; one that reads nothing answers 0.
pub type Loop<S> = fn(&mut Stand<S>, &[Entry]) -> Result<u64, Refusal>;

/// A side with its measured loops.
pub trait Loops: Side {
    /// The loop of a kind, if the side has such a thing.
    fn measured(kind: Kind) -> Option<Loop<Self>>;
}

/// Looks up entries that are there, and adds up their values.
#[inline]
fn get_hit<S: Side>(stand: &mut Stand<S>, entries: &[Entry]) -> Result<u64, Refusal> {
    let value = |entry: &Entry| stand.side.get(&stand.edition, entry.hash, entry.key);
    Ok(entries.iter().filter_map(value).fold(0, u64::wrapping_add))
}

/// Looks up entries that are not there, and counts them.
#[inline]
fn get_miss<S: Side>(stand: &mut Stand<S>, entries: &[Entry]) -> Result<u64, Refusal> {
    let missing = |entry: &&Entry| stand.side.get(&stand.edition, entry.hash, entry.key).is_none();
    Ok(entries.iter().filter(missing).count() as u64)
}

/// Puts the entries in and keeps every edition.
#[inline]
pub fn insert_kept<S: Side>(stand: &mut Stand<S>, entries: &[Entry]) -> Result<u64, Refusal> {
    for entry in entries {
        let newest = stand.kept.last().unwrap_or(&stand.edition);
        let next = stand.side.insert(newest, *entry)?;
        stand.kept.push(next);
    }
    Ok(0)
}

/// Puts the entries in and lets every older edition go.
#[inline]
pub fn insert_dropped<S: Side>(stand: &mut Stand<S>, entries: &[Entry]) -> Result<u64, Refusal> {
    for entry in entries {
        stand.put(*entry)?;
    }
    Ok(0)
}

/// Gives the entries other values, and lets every older edition go.
#[inline]
fn replace<S: Side>(stand: &mut Stand<S>, entries: &[Entry]) -> Result<u64, Refusal> {
    stand.turns += 1;
    for entry in entries {
        stand.put(Entry { value: entry.value.wrapping_add(stand.turns), ..*entry })?;
    }
    Ok(0)
}

/// Takes the entries out, and lets every older edition go.
#[inline]
pub fn remove<S: Side>(stand: &mut Stand<S>, entries: &[Entry]) -> Result<u64, Refusal> {
    for entry in entries {
        stand.take(entry.hash, entry.key)?;
    }
    Ok(0)
}

/// Lists the edition.
#[inline]
fn list<S: Side>(stand: &mut Stand<S>, _entries: &[Entry]) -> Result<u64, Refusal> {
    stand.side.list(&stand.edition)
}

/// Checks the arena, which the crate has nothing like.
#[inline(never)]
fn library_check(stand: &mut Stand<Library>, _entries: &[Entry]) -> Result<u64, Refusal> {
    stand.side.check().map(|()| 0)
}

/// Makes the crate's function and the library's of each loop that both have, and the tables by which they are found.
macro_rules! named {
    ($($kind:ident: $of_crate:ident, $of_library:ident = $written:ident;)*) => {
        $(
            #[inline(never)]
            fn $of_crate(stand: &mut Stand<Crate>, entries: &[Entry]) -> Result<u64, Refusal> {
                $written(stand, entries)
            }

            #[inline(never)]
            fn $of_library(stand: &mut Stand<Library>, entries: &[Entry]) -> Result<u64, Refusal> {
                $written(stand, entries)
            }
        )*

        impl Loops for Crate {
            fn measured(kind: Kind) -> Option<Loop<Crate>> {
                match kind {
                    $(Kind::$kind => Some($of_crate),)*
                    Kind::Check => None,
                }
            }
        }

        impl Loops for Library {
            fn measured(kind: Kind) -> Option<Loop<Library>> {
                match kind {
                    $(Kind::$kind => Some($of_library),)*
                    Kind::Check => Some(library_check),
                }
            }
        }
    };
}

named! {
    GetHit: crate_get_hit, library_get_hit = get_hit;
    GetMiss: crate_get_miss, library_get_miss = get_miss;
    InsertKept: crate_insert_kept, library_insert_kept = insert_kept;
    InsertDropped: crate_insert_dropped, library_insert_dropped = insert_dropped;
    Replace: crate_replace, library_replace = replace;
    Remove: crate_remove, library_remove = remove;
    List: crate_list, library_list = list;
}
