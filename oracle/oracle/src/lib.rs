//! The oracle: rpds 1.2.1's `HashTrieMap` and document 01's trie, run on the same calls.
//!
//! [`shelf::Shelf`] answers document 01's calls over either of the two. [`compare`] runs both and looks for differences,
//! [`answers`] writes the stored answers, [`differences`] shows where crate and product part on purpose, and [`drive`]
//! answers calls that are given as text.
pub mod answers;
pub mod both;
pub mod calls;
pub mod compare;
pub mod differences;
pub mod drive;
pub mod exhaust;
#[cfg(test)]
mod faults;
pub mod grows;
pub mod leaves;
pub mod paper;
pub mod random;
pub mod recorder;
pub mod rpds_trie;
pub mod runs;
pub mod shelf;
pub mod text;
pub mod trie;

/// The degrees of document 01's table.
pub const DEGREES: [u64; 6] = [2, 4, 8, 16, 32, 64];
