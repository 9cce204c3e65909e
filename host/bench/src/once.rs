//! One kind on one side, so many operations, for a counter of instructions.
use crate::keys::Keys;
use crate::kinds::Kind;
use crate::loops::Loops;
use crate::passes::{Measured, Passes};
use crate::sides::{Crate, Library, Side, Stand};
use std::error::Error;

/// A side by its name.
#[derive(Clone, Copy, Debug, PartialEq, Eq)]
pub enum Which {
    /// The crate.
    Crate,
    /// The library.
    Library,
}

impl Which {
    /// The side that a name means.
    pub fn from_name(name: &str) -> Option<Which> {
        match name {
            Crate::NAME => Some(Which::Crate),
            Library::NAME => Some(Which::Library),
            _ => None,
        }
    }
}

/// What is done.
#[derive(Clone, Copy, Debug, PartialEq, Eq)]
pub struct Once {
    /// The kind.
    pub kind: Kind,
    /// The side.
    pub side: Which,
    /// How many entries the edition has.
    pub size: usize,
    /// The degree.
    pub degree: u64,
    /// How many operations; of a listing or a check, how many whole ones.
    pub count: usize,
}

impl Once {
    /// Builds the edition, and does the operations.
    pub fn run(&self) -> Result<Measured, Box<dyn Error>> {
        match self.side {
            Which::Crate => self.run_on::<Crate>(),
            Which::Library => self.run_on::<Library>(),
        }
    }

    fn run_on<S: Loops>(&self) -> Result<Measured, Box<dyn Error>> {
        let keys = Keys::new(self.size);
        let passes =
            Passes::<S>::new(self.kind, &keys).ok_or(format!("the {} has no {}", S::NAME, self.kind.name()))?;
        let mut stand = Stand::build(self.degree, &keys)?;
        let mut all = Measured::default();
        let (mut left, mut pass) = (self.count, 0);
        while left > 0 {
            let entries = self.kind.entries(&keys, pass);
            let entries = &entries[..entries.len().min(left)];
            all += passes.stretch(&mut stand, entries, 1)?;
            left -= entries.len().max(1);
            pass += 1;
        }
        Ok(all)
    }
}
