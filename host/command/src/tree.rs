//! Reads an edition's branches, chains and entries out of the arena's words, which document 01 lays out, for a drawing.
//!
//! The library has no call that shows branches. Here nothing is relied on but a right header: each word is read by a
//! tested place, a branch has to stand at the depth that it says, and the rows are bounded. So a walk ends on any
//! words, and where one is wrong the row there says so.
use shelf::{Entry, Sizes};

/// A part of a tree.
pub enum Node {
    /// A branch, with a row for each of its children behind it. Branches above it that have this one path below them
    /// and no other are not drawn: `by` has their segments.
    Branch { cell: u64, depth: u64, by: Vec<u64> },
    /// An entry.
    Entry { cell: u64, entry: Entry },
    /// A chain of so many entries, with a row for each behind it.
    Chain(u64),
    /// Words that are wrong, and how.
    Damaged(String),
}

/// A row of a drawing: the lines that lead to it, where it stands, and what stands there. A branch with undrawn ones
/// above it stands where the first of them does.
pub struct Row {
    pub stem: String,
    pub depth: u64,
    pub segment: Option<u64>,
    pub node: Node,
}

/// The rows of an edition, each behind the one that it is a child of.
pub struct Tree {
    pub rows: Vec<Row>,
    /// How many entries are among the rows.
    pub entries: u64,
    /// Whether there were more rows than wanted.
    pub cut: bool,
}

impl Tree {
    /// Reads the tree of an edition that is held in an arena with a right header of these sizes: so many rows at most.
    pub fn read(words: &[u64], sizes: Sizes, edition: u64, most: u64) -> Tree {
        let bits = sizes.degree.trailing_zeros();
        let tree = Tree { rows: Vec::new(), entries: 0, cut: false };
        let mut walk = Walk { words, sizes, bits, depths: u64::from(64_u32.div_ceil(bits)), most, tree };
        let top = Place { depth: 0, path: 0, segment: None, stem: String::new(), below: String::new() };
        match walk.word(walk.offset(5) + Sizes::SLOT_WORDS * edition + 1) {
            Ok(0) => {}
            Ok(root) => walk.node(root, &top),
            Err(wrong) => walk.row(&top, Node::Damaged(wrong)),
        }
        walk.tree
    }
}

/// Where a node stands: its depth, the low bits that every hash there has, and the lines to it and to what is below it.
struct Place {
    depth: u64,
    path: u64,
    segment: Option<u64>,
    stem: String,
    below: String,
}

impl Place {
    /// The place of a child: the last one's line ends there.
    fn child(&self, depth: u64, path: u64, segment: Option<u64>, last: bool) -> Place {
        let (stem, below) = if last { ("└─ ", "   ") } else { ("├─ ", "│  ") };
        Place { depth, path, segment, stem: self.below.clone() + stem, below: self.below.clone() + below }
    }
}

/// A branch cell: its children are segments and references.
struct Branch {
    cell: u64,
    depth: u64,
    children: Vec<(u64, u64)>,
}

/// An entry cell: its entry, the length of the chain from here on, and the reference of the next.
struct Link {
    cell: u64,
    length: u64,
    next: u64,
    entry: Entry,
}

struct Walk<'a> {
    words: &'a [u64],
    sizes: Sizes,
    bits: u32,
    depths: u64,
    most: u64,
    tree: Tree,
}

impl Walk<'_> {
    fn row(&mut self, place: &Place, node: Node) {
        if self.tree.rows.len() as u64 >= self.most {
            self.tree.cut = true;
            return;
        }
        self.tree.entries += u64::from(matches!(node, Node::Entry { .. }));
        self.tree.rows.push(Row { stem: place.stem.clone(), depth: place.depth, segment: place.segment, node });
    }

    /// Draws what a reference names, and all below it.
    fn node(&mut self, reference: u64, place: &Place) {
        let drawn =
            if reference.is_multiple_of(2) { self.branch(reference, place) } else { self.leaf(reference, place) };
        if let Err(wrong) = drawn {
            self.row(place, Node::Damaged(wrong));
        }
    }

    /// Draws a branch and its children. Branches with one child each, which is a branch again, are a row with the last.
    fn branch(&mut self, reference: u64, place: &Place) -> Result<(), String> {
        let mut branch = self.read_branch(reference, place.depth)?;
        let (mut path, mut by) = (place.path, Vec::new());
        while let [(segment, child)] = branch.children[..]
            && let Ok(below) = self.read_branch(child, branch.depth + 1)
        {
            path |= segment << self.shift(branch.depth);
            by.push(segment);
            branch = below;
        }
        let Branch { cell, depth, children } = branch;
        self.row(place, Node::Branch { cell, depth, by });
        for (at, (segment, child)) in children.iter().enumerate() {
            if self.tree.cut {
                break;
            }
            let path = path | segment << self.shift(depth);
            self.node(*child, &place.child(depth + 1, path, Some(*segment), at + 1 == children.len()));
        }
        Ok(())
    }

    /// Draws an entry, or the chain that it is the front of.
    fn leaf(&mut self, reference: u64, place: &Place) -> Result<(), String> {
        let Link { cell, length, entry, .. } = self.read_link(reference, place)?;
        if length == 1 {
            self.row(place, Node::Entry { cell, entry });
            return Ok(());
        }
        if place.depth < self.depths {
            return Err(format!("entry cell {cell} has a chain length of {length} at depth {}", place.depth));
        }
        self.row(place, Node::Chain(length));
        self.chain(reference, length, place);
        Ok(())
    }

    /// Draws the entries of a chain, whose lengths fall by one to the end.
    fn chain(&mut self, front: u64, length: u64, place: &Place) {
        let mut reference = front;
        for length in (1..=length).rev() {
            if self.tree.cut {
                return;
            }
            let below = |last| place.child(place.depth, place.path, None, last);
            match self.read_link(reference, place) {
                Ok(link) if link.length == length => {
                    self.row(&below(length == 1), Node::Entry { cell: link.cell, entry: link.entry });
                    reference = link.next;
                }
                Ok(Link { cell, length: says, .. }) => {
                    let wrong = format!("entry cell {cell} has a chain length of {says} in the place of {length}");
                    return self.row(&below(true), Node::Damaged(wrong));
                }
                Err(wrong) => return self.row(&below(true), Node::Damaged(wrong)),
            }
        }
    }

    /// The branch that a reference names at a depth.
    fn read_branch(&self, reference: u64, depth: u64) -> Result<Branch, String> {
        let cell = cell(reference, 0, self.sizes.branches)?;
        let at = self.offset(6) + cell * self.sizes.branch_words();
        let (says, bitmap) = (self.word(at + 1)?, self.word(at + 2)?);
        if says != depth || depth >= self.depths {
            return Err(format!("branch cell {cell} says depth {says} at depth {depth}"));
        }
        // At the last depth the hash may have fewer bits left than a segment has.
        let segments = self.sizes.degree.min(1 << (64 - self.shift(depth)).min(63));
        if bitmap == 0 || bitmap.checked_shr(segments as u32).unwrap_or(0) != 0 {
            return Err(format!("branch cell {cell} has the bitmap {bitmap:#x}"));
        }
        let present = (0..segments).filter(|segment| bitmap >> segment & 1 == 1);
        let children = present.zip(at + 3..).map(|(segment, at)| Ok((segment, self.word(at)?)));
        Ok(Branch { cell, depth, children: children.collect::<Result<_, String>>()? })
    }

    /// The entry cell that a reference names, to which its hash has to lead.
    fn read_link(&self, reference: u64, place: &Place) -> Result<Link, String> {
        let cell = cell(reference, 1, self.sizes.entries)?;
        let at = self.offset(7) + cell * Sizes::ENTRY_WORDS;
        let (length, next) = (self.word(at + 1)?, self.word(at + 2)?);
        let entry = Entry { hash: self.word(at + 3)?, key: self.word(at + 4)?, value: self.word(at + 5)? };
        if length == 0 || (length == 1) != (next == 0) {
            return Err(format!("entry cell {cell} has a chain length of {length} and the next reference {next}"));
        }
        let known = 1_u64.checked_shl(self.shift(place.depth)).unwrap_or(0).wrapping_sub(1);
        if entry.hash & known != place.path {
            return Err(format!("entry cell {cell} has the hash {:#x}, which does not lead here", entry.hash));
        }
        Ok(Link { cell, length, next, entry })
    }

    /// How many bits of a hash the depths above this one take.
    fn shift(&self, depth: u64) -> u32 {
        self.bits * depth as u32
    }

    /// A word of the header, which is there and right.
    fn offset(&self, at: usize) -> u64 {
        self.words.get(at).copied().unwrap_or_default()
    }

    fn word(&self, at: u64) -> Result<u64, String> {
        let word = usize::try_from(at).ok().and_then(|at| self.words.get(at));
        word.copied().ok_or_else(|| format!("word {at} is beyond the end"))
    }
}

/// The cell that a reference names, if it is of this kind (0 for a branch, 1 for an entry) and among so many cells.
fn cell(reference: u64, kind: u64, cells: u64) -> Result<u64, String> {
    let cell = (reference / 2).checked_sub(1).filter(|cell| reference % 2 == kind && *cell < cells);
    cell.ok_or_else(|| format!("reference {reference} names no {}", ["branch cell", "entry cell"][kind as usize]))
}
