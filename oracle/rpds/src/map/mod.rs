//! The maps of rpds, of which only the hash trie is built here.
#[cfg_attr(rustfmt, rustfmt::skip)]
#[path = "../../../target/rpds/src/map/entry.rs"]
pub mod entry;
pub mod hash_trie_map;
