//! A plain decision of soundness by reachability: document 01's sentences one after the other, on any words. What stands in
//! quotes is document 01's. Nothing of the library is called.
use crate::plain::{Cell, Kind, Plain};
use std::collections::HashSet;

/// Whether the words are a sound arena.
pub fn is_sound(words: &[u64]) -> bool {
    Plain::read(words).is_some_and(|arena| are_slots_right(&arena) && are_cells_right(&arena))
}

/// "Slot: held (0 or 1), root, size; all 0 if not held", and "every held root shows a trie that the rules above can build,
/// with its size". The empty map's root is 0.
fn are_slots_right(arena: &Plain) -> bool {
    arena.slots().all(|slot| match slot {
        [0, root, size] => root == 0 && size == 0,
        [1, 0, size] => size == 0,
        [1, root, size] => entries_below(arena, root, &mut Vec::new()) == Some(size),
        _ => false,
    })
}

/// How many entries a reference shows that stands at the end of a path of segments, if what it shows is part of a trie that
/// the rules can build.
///
/// A walk ends soon: below every branch that is gone through stand entries, and an entry with the segments of one path does
/// not have those of another.
fn entries_below(arena: &Plain, reference: u64, path: &mut Vec<u64>) -> Option<u64> {
    let cell = arena.cell(reference)?;
    match cell.kind {
        Kind::Branch => entries_of_branch(arena, cell, path),
        Kind::Entry => entries_of_leaf(arena, cell, path),
    }
}

/// "Branches stand at depths 0 to D−1", "a branch's depth word is its place", "children packed first" in ascending segment
/// order, "the other child words 0". A branch has a child: the empty map takes no cell. And since "each branch on the path
/// whose only child is a single becomes that single", only the root that a first insert leaves has such a child.
fn entries_of_branch(arena: &Plain, branch: Cell, path: &mut Vec<u64>) -> Option<u64> {
    let depth = path.len() as u64;
    let [_, depth_word, bitmap, children @ ..] = arena.words_of(branch) else { return None };
    if depth >= arena.depths || *depth_word != depth || *bitmap == 0 {
        return None;
    }
    let segments: Vec<u64> = (0..64).filter(|segment| bitmap >> segment & 1 == 1).collect();
    if segments.iter().any(|segment| *segment >= arena.sizes.degree) {
        return None;
    }
    let (packed, others) = children.split_at(segments.len());
    let is_lone = packed.len() == 1 && is_single(arena, packed[0]);
    if others.iter().any(|word| *word != 0) || is_lone && depth > 0 {
        return None;
    }
    let mut entries = 0;
    for (segment, child) in segments.iter().zip(packed) {
        path.push(*segment);
        entries += entries_below(arena, *child, path)?;
        path.pop();
    }
    Some(entries)
}

fn is_single(arena: &Plain, reference: u64) -> bool {
    arena.cell(reference).is_some_and(|cell| cell.kind == Kind::Entry && arena.words_of(cell)[2] == 0)
}

/// A single stands anywhere, "a chain stands at depth D". Each hash has the segments of the path, and no key stands twice.
fn entries_of_leaf(arena: &Plain, front: Cell, path: &[u64]) -> Option<u64> {
    let chain = chain_from(arena, front)?;
    let is_last = path.len() as u64 == arena.depths;
    let has_path = |hash: u64| path.iter().zip(0..).all(|(segment, depth)| arena.segment(hash, depth) == *segment);
    let mut seen = HashSet::new();
    let is_right = |cell: &Cell| {
        let (hash, key) = (arena.words_of(*cell)[3], arena.words_of(*cell)[4]);
        has_path(hash) && seen.insert((hash, key))
    };
    ((is_last || chain.len() == 1) && chain.iter().all(is_right)).then_some(chain.len() as u64)
}

/// "A cell's chain length is one more than that of its next, or 1." The lengths fall, so a chain ends.
fn chain_from(arena: &Plain, front: Cell) -> Option<Vec<Cell>> {
    let mut chain = vec![front];
    let mut cell = front;
    loop {
        let [_, length, next, ..] = *arena.words_of(cell) else { return None };
        if next == 0 {
            return (length == 1).then_some(chain);
        }
        cell = arena.cell(next).filter(|next| next.kind == Kind::Entry)?;
        if arena.words_of(cell)[1].checked_add(1) != Some(length) {
            return None;
        }
        chain.push(cell);
    }
}

/// "Each count is the number of slots, child words and next words, in held slots and reached cells, that name the cell;
/// exactly the cells not reached from a held slot have count 0, and each of them stands once on its free chain; words 10 and
/// 11 count the reached cells."
fn are_cells_right(arena: &Plain) -> bool {
    let named = arena.named();
    Kind::BOTH.iter().zip(&named).all(|(kind, counts)| {
        let has_its_count = |(number, count)| arena.words_of(Cell { kind: *kind, number })[0] == count;
        let reached = counts.iter().filter(|count| **count > 0).count() as u64;
        counts.iter().copied().enumerate().all(has_its_count)
            && is_free_chain_right(arena, *kind, counts)
            && arena.words[10 + *kind as usize] == reached
    })
}

/// "Free cell: first word 0, second the next free reference, the rest 0."
fn is_free_chain_right(arena: &Plain, kind: Kind, counts: &[u64]) -> bool {
    let mut is_chained = vec![false; counts.len()];
    let mut reference = arena.words[8 + kind as usize];
    while reference != 0 {
        let Some(cell) = arena.cell(reference).filter(|cell| cell.kind == kind) else { return false };
        let [_, next, rest @ ..] = arena.words_of(cell) else { return false };
        if is_chained[cell.number] || rest.iter().any(|word| *word != 0) {
            return false;
        }
        is_chained[cell.number] = true;
        reference = *next;
    }
    is_chained.iter().zip(counts).all(|(is_chained, count)| *is_chained == (*count == 0))
}
