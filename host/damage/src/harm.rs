//! Damage to the words of an arena: one word in turn, some words at random, or all of them behind a right header.
use crate::plain::{Cell, Kind, Layout};
use crate::random::Random;

/// How many values a word is changed to in turn.
pub const VALUES: u64 = 8 + 64;

/// One of the values that a word of an arena is changed to: none, the smallest, its neighbours, the next reference of its kind,
/// the last branch cell and the last entry cell, a number far from any, and then each of its bits the other way.
pub fn other(words: &[u64], at: usize, turn: u64) -> u64 {
    let word = words[at];
    match turn {
        0 => 0,
        1 => 1,
        2 => word.wrapping_add(1),
        3 => word.wrapping_sub(1),
        4 => word.wrapping_add(2),
        5 => 2 * words[2],
        6 => 2 * words[3] + 1,
        7 => u64::MAX,
        _ => word ^ (1 << (turn % 64)),
    }
}

/// One to five changes, each of a word, of two, or of a cell.
pub fn some_words(words: &mut Vec<u64>, random: &mut Random) {
    let Some(layout) = Layout::read(words) else { return };
    let (total, references) = (layout.total, 2 * layout.sizes.branches.max(layout.sizes.entries) + 4);
    for _ in 0..1 + random.below(5) {
        let at = some_place(words, total, random);
        match random.below(9) {
            0 => words[at] = random.below(references),
            1 => words[at] = random.below(8),
            2 => words[at] = random.word(),
            3 => words[at] ^= 1 << random.below(64),
            4 => words[at] = words[at].wrapping_add(1),
            5 => words[at] = words[at].wrapping_sub(1),
            6 => words.swap(at, random.below(total as u64) as usize),
            7 => words[at] = words[random.below(total as u64) as usize],
            _ => copy_a_cell(words, layout, random),
        }
    }
    if random.percent(2) {
        words.truncate(random.below(total as u64) as usize);
    }
}

/// A place behind the header's fixed words, mostly; half of them among words that are not 0.
fn some_place(words: &[u64], total: usize, random: &mut Random) -> usize {
    let first = if random.percent(2) { 0 } else { 8 };
    let mut at = first + random.below((total - first) as u64) as usize;
    if random.percent(50) {
        at = (at..total).find(|at| words[*at] != 0).unwrap_or(at);
    }
    at
}

/// A cell's words over those of another of its kind.
fn copy_a_cell(words: &mut [u64], layout: Layout, random: &mut Random) {
    let kind = *random.of(&Kind::BOTH);
    let mut place = || layout.cell_at(Cell { kind, number: random.below(layout.cells(kind) as u64) as usize });
    words.copy_within(place(), place().start);
}

/// Random words behind the header of an arena: mostly 0, small numbers and references, so that a walk gets some way.
pub fn all_words(words: &mut [u64], random: &mut Random) {
    let Some(layout) = Layout::read(words) else { return };
    let references = 2 * layout.sizes.branches.max(layout.sizes.entries) + 4;
    let zeros = random.below(90);
    for word in &mut words[8..layout.total] {
        *word = match random.below(100) {
            roll if roll < zeros => 0,
            roll if roll < zeros + 4 => random.word(),
            roll if roll % 2 == 0 => random.below(4),
            _ => random.below(references),
        };
    }
}
