//! Editions of a persistent hash trie in an arena of 64-bit words: a safe wrapper over the proved library `shelf_c`.
//!
//! An edition maps elements (a hash and a key) to values. An update makes a new edition beside the old one, and the two
//! share what they have in common. **No edition ever loses an entry that no call on that edition took away.**
//!
//! [`Arena`] has a method for each call of the library, over words that it owns or that are lent to it. A call that is
//! refused says why by a [`Refusal`], and has altered nothing.
//!
//! Hashes are the caller's: two entries are of one element if hash and key both agree.
//!
//! ```
//! use shelf::{Arena, Sizes, Tag};
//!
//! let mut arena = Arena::owned(Sizes { degree: 16, branches: 1_000, entries: 1_000, editions: 16 })?;
//! let dose_curve = Tag { group: 0x3005, element: 0x1042 }.key();
//! let hash = dose_curve.wrapping_mul(0x9e37_79b9_7f4a_7c15);
//!
//! let empty = arena.new_edition()?;
//! let study = arena.insert(empty, hash, dose_curve, 81_920)?.edition;
//! let rewritten = arena.remove(study, hash, dose_curve)?.edition;
//!
//! // The rewrite has lost the element, and the study has not.
//! assert_eq!(arena.size(rewritten)?, 0);
//! assert_eq!(arena.get(study, hash, dose_curve)?, 81_920);
//! # Ok::<(), Box<dyn std::error::Error>>(())
//! ```

#[cfg(not(all(target_os = "linux", target_arch = "x86_64", target_pointer_width = "64")))]
compile_error!("the proved library is made for 64-bit x86 under Linux");

mod arena;
mod listing;
mod raw;
mod refusal;
mod sizes;
mod tag;
mod words;

pub(crate) use arena::done;
pub use arena::{Arena, Cells, Edition, Entry, Update};
pub use listing::{Entries, OwnPage};
pub use refusal::Refusal;
pub use sizes::Sizes;
pub use tag::{Class, Tag};
pub use words::Words;
