//! Damage to the tries alone: children and chains are changed, and then depths, counts, sizes and free chains are put right for
//! what the held roots reach. Where such an arena is not sound, only the shape of a trie shows it.
use crate::plain::{Cell, Kind, Plain};
use crate::random::Random;

/// One to three changes of what editions show, with everything that follows from them put right.
pub fn reshape(words: &mut [u64], random: &mut Random) {
    for _ in 0..1 + random.below(3) {
        change_one(words, random);
    }
    if random.percent(60) {
        settle_depths(words);
    }
    settle(words);
}

/// The cells that held editions reach.
fn used_cells(plain: &Plain) -> Vec<Cell> {
    let named = plain.named();
    let cells = Kind::BOTH.into_iter().flat_map(|kind| (0..plain.cells(kind)).map(move |number| Cell { kind, number }));
    cells.filter(|cell| named[cell.kind as usize][cell.number] > 0).collect()
}

/// Changes a branch or an entry in use by another cell, now and then by one that it names itself; or changes a slot.
fn change_one(words: &mut [u64], random: &mut Random) {
    let Some(plain) = Plain::read(words) else { return };
    let layout = plain.layout;
    let used = used_cells(&plain);
    if used.is_empty() {
        return;
    }
    let (cell, mut other) = (*random.of(&used), *random.of(&used));
    if random.percent(30) {
        other = plain.cell(*random.of(plain.names_in(cell))).unwrap_or(other);
    }
    let theirs = plain.words_of(other).to_vec();
    if random.percent(5) {
        let slot = layout.slot_at(random.below(layout.sizes.editions) as usize);
        words[slot].copy_from_slice(&[1, other.reference(), 0]);
        return;
    }
    let own = &mut words[layout.cell_at(cell)];
    match cell.kind {
        Kind::Branch => change_branch(own, other.reference(), random),
        Kind::Entry => change_entry(own, &theirs, other, random),
    }
}

/// Takes a child out, puts another one in or in the place of one, lets two change places, moves one to another segment, or
/// changes the depth.
fn change_branch(words: &mut [u64], other: u64, random: &mut Random) {
    let degree = words.len() as u64 - 3;
    let segments = (0..degree).filter(|segment| words[2] >> segment & 1 == 1);
    let mut children: Vec<(u64, u64)> = segments.zip(words[3..].iter().copied()).collect();
    if children.is_empty() {
        return;
    }
    let (one, two) = (random.below(children.len() as u64) as usize, random.below(children.len() as u64) as usize);
    let segment = random.below(degree);
    match random.below(6) {
        0 => _ = children.remove(one),
        1 => children.push((segment, other)),
        2 => children[one].1 = other,
        3 => (children[one].1, children[two].1) = (children[two].1, children[one].1),
        4 => children[one].0 = segment,
        _ => words[1] = random.below(5),
    }
    children.sort_unstable();
    children.dedup_by_key(|child| child.0);
    words[2] = children.iter().fold(0, |bitmap, child| bitmap | 1 << child.0);
    words[3..].fill(0);
    words[3..].iter_mut().zip(&children).for_each(|(word, child)| *word = child.1);
}

/// Puts another cell behind this one, ends the chain here, or gives it another's hash or key, or a hash of its own.
fn change_entry(words: &mut [u64], theirs: &[u64], other: Cell, random: &mut Random) {
    let is_entry = other.kind == Kind::Entry;
    match random.below(5) {
        0 => words[1..3].copy_from_slice(&[theirs[1].wrapping_add(1), other.reference()]),
        1 => words[1..3].copy_from_slice(&[1, 0]),
        2 if is_entry => words[3] = theirs[3],
        3 if is_entry => words[4] = theirs[4],
        _ => words[3] ^= 1 << random.below(64),
    }
}

/// Puts right the depth of each branch that the held roots reach, for the first place where it is met.
fn settle_depths(words: &mut [u64]) {
    let Some(plain) = Plain::read(words) else { return };
    let layout = plain.layout;
    let mut depths: Vec<Option<u64>> = vec![None; layout.cells(Kind::Branch)];
    let roots = plain.slots().filter(|slot| slot[0] == 1).map(|slot| (slot[1], 0));
    let mut ahead: Vec<(u64, u64)> = roots.collect();
    while let Some((reference, depth)) = ahead.pop() {
        let Some(cell) = plain.cell(reference).filter(|cell| cell.kind == Kind::Branch) else { continue };
        if depths[cell.number].is_none() {
            depths[cell.number] = Some(depth);
            ahead.extend(plain.names_in(cell).iter().map(|child| (*child, depth + 1)));
        }
    }
    for (number, depth) in depths.into_iter().enumerate() {
        let own = &mut words[layout.cell_at(Cell { kind: Kind::Branch, number })];
        own[1] = depth.unwrap_or(own[1]);
    }
}

/// Puts right what follows from the held roots: sizes, counts, free cells, and words 8 to 11.
pub fn settle(words: &mut [u64]) {
    let Some(plain) = Plain::read(words) else { return };
    let layout = plain.layout;
    let named = plain.named();
    let slots: Vec<[u64; 3]> = plain.slots().map(|slot| settled_slot(&plain, slot)).collect();
    words[12..12 + 3 * slots.len()].copy_from_slice(slots.as_flattened());
    for kind in Kind::BOTH {
        let mut first_free = 0;
        for (number, count) in named[kind as usize].iter().enumerate().rev() {
            let cell = Cell { kind, number };
            let own = &mut words[layout.cell_at(cell)];
            own[0] = *count;
            if *count == 0 {
                own.fill(0);
                own[1] = first_free;
                first_free = cell.reference();
            }
        }
        words[8 + kind as usize] = first_free;
        words[10 + kind as usize] = named[kind as usize].iter().filter(|count| **count > 0).count() as u64;
    }
}

fn settled_slot(plain: &Plain, slot: [u64; 3]) -> [u64; 3] {
    match slot {
        [1, root, _] => [1, root, entries_met(plain, root)],
        _ => [0; 3],
    }
}

/// How many entries a walk from a root meets, until it has met as many cells as there are; references that name no cell are
/// passed over.
fn entries_met(plain: &Plain, root: u64) -> u64 {
    let mut left = plain.sizes.work_words();
    let mut entries = 0;
    let mut ahead = vec![root];
    while let Some(reference) = ahead.pop() {
        let Some(cell) = plain.cell(reference).filter(|_| left > 0) else { continue };
        left -= 1;
        entries += cell.kind as u64;
        ahead.extend(plain.names_in(cell));
    }
    entries
}
