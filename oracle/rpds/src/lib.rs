//! `HashTrieMap` of rpds 1.2.1, compiled from the crate's own files, unchanged, where they lie: `target/rpds` is a link to
//! their folder, which `build.rs` makes. Added is one module, [`map::hash_trie_map::probe`], which shows the nodes of a
//! map and their addresses.
//!
//! `rustfmt` passes over the files that are not ours, or it would write to them.
extern crate alloc;

#[cfg_attr(rustfmt, rustfmt::skip)]
#[path = "../../target/rpds/src/list/mod.rs"]
pub mod list;
pub mod map;
#[cfg_attr(rustfmt, rustfmt::skip)]
#[path = "../../target/rpds/src/utils/mod.rs"]
mod utils;

pub use crate::list::List;
pub use crate::map::hash_trie_map::HashTrieMap;
