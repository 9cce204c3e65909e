//! The crate rpds 1.2.1 and the proved library, measured side by side in one process, on the same keys.
//!
//! [`keys`] has what both sides are given, [`sides`] the two sides, [`loops`] what is timed, and [`rounds`] the order
//! in which that is done. [`table`], [`plot`] and [`page`] show the [`ratios`].
pub mod keys;
pub mod kinds;
pub mod loops;
pub mod once;
pub mod options;
pub mod page;
pub mod passes;
pub mod plot;
pub mod ratios;
pub mod room;
pub mod rounds;
pub mod sides;
pub mod svg;
pub mod table;
