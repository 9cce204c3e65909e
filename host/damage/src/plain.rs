//! An arena's words read plainly, by document 01's layout: header, slots, cells, and how often each cell is named.
use shelf::Sizes;
use std::ops::{Deref, Range};

/// The kinds of cells: the last bit of their references.
#[derive(Clone, Copy, Debug, PartialEq, Eq)]
#[allow(missing_docs)]
pub enum Kind {
    Branch = 0,
    Entry = 1,
}

impl Kind {
    /// Both kinds.
    pub const BOTH: [Kind; 2] = [Kind::Branch, Kind::Entry];
}

/// A cell that there is.
#[derive(Clone, Copy, Debug, PartialEq, Eq)]
pub struct Cell {
    /// Its kind.
    pub kind: Kind,
    /// Its number among those of its kind.
    pub number: usize,
}

impl Cell {
    /// "Branch cell i is 2i+2, entry cell i is 2i+3."
    pub fn reference(self) -> u64 {
        2 * self.number as u64 + 2 + self.kind as u64
    }
}

/// What a right header says.
#[derive(Clone, Copy)]
pub struct Layout {
    /// Degree, cells and slots.
    pub sizes: Sizes,
    /// How many words belong to the arena.
    pub total: usize,
    /// The depths D of the degree.
    pub depths: u64,
    bits: u64,
}

impl Layout {
    /// Reads a header: nothing where words 0 to 7 are wrong, or the slice is shorter than 12 words or the total.
    pub fn read(words: &[u64]) -> Option<Layout> {
        let &[layout, degree, branches, entries, editions, at_slots, at_branches, at_entries, ..] = words else {
            return None;
        };
        let sizes = Sizes { degree, branches, entries, editions };
        let total = sizes.words().ok()?;
        let is_right = layout == 1
            && at_slots == 12
            && at_branches == 12 + 3 * editions
            && at_entries == at_branches + branches * (3 + degree)
            && words.len() >= total;
        let bits = u64::from(degree.ilog2());
        is_right.then_some(Layout { sizes, total, depths: depths(degree), bits })
    }

    /// How many cells of a kind there are.
    pub fn cells(&self, kind: Kind) -> usize {
        match kind {
            Kind::Branch => self.sizes.branches as usize,
            Kind::Entry => self.sizes.entries as usize,
        }
    }

    /// The cell that a reference names, if there is one.
    pub fn cell(&self, reference: u64) -> Option<Cell> {
        let kind = Kind::BOTH[(reference % 2) as usize];
        let number = usize::try_from(reference / 2).ok()?.checked_sub(1)?;
        (number < self.cells(kind)).then_some(Cell { kind, number })
    }

    /// Where the words of a slot stand.
    pub fn slot_at(&self, slot: usize) -> Range<usize> {
        12 + 3 * slot..12 + 3 * slot + 3
    }

    /// Where the words of a cell stand.
    pub fn cell_at(&self, cell: Cell) -> Range<usize> {
        let behind_slots = 12 + 3 * self.sizes.editions as usize;
        let branch_width = 3 + self.sizes.degree as usize;
        let (first, width) = match cell.kind {
            Kind::Branch => (behind_slots, branch_width),
            Kind::Entry => (behind_slots + self.cells(Kind::Branch) * branch_width, 6),
        };
        let start = first + cell.number * width;
        start..start + width
    }

    /// "The segment at depth t is the hash divided by 2 to the power t·bits, modulo the degree."
    pub fn segment(&self, hash: u64, depth: u64) -> u64 {
        (hash >> (depth * self.bits)) % self.sizes.degree
    }
}

/// "Depths D" of a degree of the table: as many segments has a hash.
pub fn depths(degree: u64) -> u64 {
    64_u64.div_ceil(degree.ilog2().into())
}

/// The words of an arena whose header is right.
#[derive(Clone, Copy)]
pub struct Plain<'a> {
    /// The words as they were lent; those beyond the total mean nothing.
    pub words: &'a [u64],
    /// What the header says.
    pub layout: Layout,
}

impl Deref for Plain<'_> {
    type Target = Layout;

    fn deref(&self) -> &Layout {
        &self.layout
    }
}

impl<'a> Plain<'a> {
    /// Reads the words; nothing where the header is wrong.
    pub fn read(words: &'a [u64]) -> Option<Plain<'a>> {
        Layout::read(words).map(|layout| Plain { words, layout })
    }

    /// "Slot: held (0 or 1), root, size."
    pub fn slots(&self) -> impl Iterator<Item = [u64; 3]> + 'a {
        let words = &self.words[12..12 + 3 * self.sizes.editions as usize];
        words.chunks_exact(3).map(|slot| [slot[0], slot[1], slot[2]])
    }

    /// The slot of an edition, if there is one and it is held.
    pub fn held(&self, edition: u64) -> Option<[u64; 3]> {
        self.slots().nth(usize::try_from(edition).ok()?).filter(|slot| slot[0] == 1)
    }

    /// The words of a cell: of a branch "count, depth, bitmap, children", of an entry "count, chain length from here, next,
    /// hash, key, value".
    pub fn words_of(&self, cell: Cell) -> &'a [u64] {
        &self.words[self.cell_at(cell)]
    }

    /// The child words of a branch, or the next word of an entry.
    pub fn names_in(&self, cell: Cell) -> &'a [u64] {
        match cell.kind {
            Kind::Branch => &self.words_of(cell)[3..],
            Kind::Entry => &self.words_of(cell)[2..3],
        }
    }

    /// For each cell, branches first, how many slots, child words and next words name it, in held slots and reached cells.
    /// Words that name no cell are passed over.
    pub fn named(&self) -> [Vec<u64>; 2] {
        let mut named = Kind::BOTH.map(|kind| vec![0; self.cells(kind)]);
        let held = self.slots().filter(|slot| slot[0] == 1);
        let mut naming: Vec<u64> = held.map(|slot| slot[1]).collect();
        while let Some(reference) = naming.pop() {
            let Some(cell) = self.cell(reference) else { continue };
            let count = &mut named[cell.kind as usize][cell.number];
            *count += 1;
            if *count == 1 {
                naming.extend(self.names_in(cell));
            }
        }
        named
    }
}
