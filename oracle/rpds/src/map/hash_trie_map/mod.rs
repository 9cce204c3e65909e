//! The crate's file is included, so that a module beside it can see what it keeps private.
include!("../../../../target/rpds/src/map/hash_trie_map/mod.rs");

pub mod probe;
