//! Comparison at scale: rpds 1.2.1's `HashTrieMap` and the proved library in one process, on the same random calls, at all six
//! degrees and up to 100,000 entries.
//!
//! [`expected`] answers each call from the crate's maps, with document 01's slots, room and refusals over them; [`library`]
//! answers it from an arena of words. [`both`] holds the one to the other, [`game`] plays a run, and [`comparison`] all runs.
pub mod both;
pub mod cells;
pub mod comparison;
pub mod edition;
pub mod expected;
pub mod game;
pub mod library;
pub mod player;
pub mod runs;
pub mod tally;
