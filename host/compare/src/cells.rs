//! Which cells editions have, and which of them they share.
use crate::edition::{Edition, Place, chain_below};
use oracle::calls::Cells;
use std::collections::HashSet;

/// A node, and the edition that it is looked at in.
#[derive(Clone, Copy)]
struct At<'a> {
    node: Place<'a>,
    edition: &'a Edition,
}

impl<'a> At<'a> {
    fn root(edition: &'a Edition) -> Option<At<'a>> {
        edition.root().map(|node| At { node, edition })
    }

    /// The child at a segment, or a leaf itself, which ends every path through it.
    fn below(self, segment: usize) -> Option<At<'a>> {
        let child = self.node.child(segment).or(self.node.leaf().map(|_| self.node));
        child.map(|node| At { node, ..self })
    }
}

/// The cells of an edition that none of the others has: what an update takes, and what a drop frees.
///
/// Whatever stands below a shared branch is shared, so this takes as long as there are such cells and no longer.
pub fn only_in(edition: &Edition, others: &[&Edition]) -> Cells {
    let others: Vec<At<'_>> = others.iter().filter_map(|edition| At::root(edition)).collect();
    let mut cells = Cells::default();
    if let Some(root) = At::root(edition) {
        count_own(root, 0, &others, &mut cells);
    }
    cells
}

/// Counts at a node and below. `others` are the nodes of other editions at the same place, or the leaves that end their paths
/// to it.
fn count_own(at: At<'_>, depth: usize, others: &[At<'_>], cells: &mut Cells) {
    if others.iter().any(|other| other.node.address() == at.node.address()) {
        return;
    }
    if let Some(chain) = at.node.leaf() {
        let hash = chain[0].hash;
        let theirs = others.iter().flat_map(|other| other.edition.names(&chain_below(other.node, depth, hash)));
        let theirs: HashSet<_> = theirs.collect();
        cells.entries += at.edition.names(&chain).iter().filter(|name| !theirs.contains(name)).count() as u64;
        return;
    }
    cells.branches += 1;
    for (segment, child) in at.node.children() {
        let has_it = |other: &At<'_>| other.node.child(segment).is_some_and(|own| own.address() == child.address());
        if !others.iter().any(has_it) {
            let beside: Vec<At<'_>> = others.iter().filter_map(|other| other.below(segment)).collect();
            count_own(At { node: child, ..at }, depth + 1, &beside, cells);
        }
    }
}

/// The cells of some editions, each once, by a walk through all of them.
pub fn distinct<'a>(editions: impl Iterator<Item = &'a Edition>) -> Cells {
    let mut branches = HashSet::new();
    let mut entries = HashSet::new();
    let mut ahead: Vec<At<'_>> = editions.filter_map(At::root).collect();
    while let Some(at) = ahead.pop() {
        if let Some(chain) = at.node.leaf() {
            entries.extend(at.edition.names(&chain));
        } else if branches.insert(at.node.address()) {
            ahead.extend(at.node.children().map(|(_, node)| At { node, ..at }));
        }
    }
    Cells { branches: branches.len() as u64, entries: entries.len() as u64 }
}
