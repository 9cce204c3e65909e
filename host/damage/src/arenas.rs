//! Sound arenas, made by calls: small ones that show one thing each, and larger ones by random calls.
use crate::plain::depths;
use crate::random::Random;
use shelf::{Arena, Edition, Refusal, Sizes};

/// The degrees of document 01's table.
pub const DEGREES: [u64; 6] = [2, 4, 8, 16, 32, 64];

/// Words of a larger arena that its branch cells take, about.
const BRANCH_WORDS: u64 = 3000;

/// The small arenas of a degree.
pub fn small(degree: u64) -> Result<[Vec<u64>; 2], Refusal> {
    Ok([with_a_chain(degree)?, without_a_chain(degree)?])
}

/// Three editions that share cells and one without entries. A chain stands at depth D, and a single beside it; the chain's back
/// is a single of another edition. Cells of editions that were dropped are free, between others.
fn with_a_chain(degree: u64) -> Result<Vec<u64>, Refusal> {
    let sizes = Sizes { degree, branches: 2 * depths(degree) + 8, entries: 8, editions: 5 };
    let mut arena = Arena::formatted(vec![0; sizes.words()?], sizes)?;
    let empty = arena.new_edition()?;
    let one = arena.insert(empty, 0x26, 1, 10)?.edition;
    let two = arena.insert(one, 0x42, 3, 30)?.edition;
    let three = arena.insert(two, 0x7000_0000_0000_0008, 4, 40)?.edition;
    arena.drop(one)?;
    let chained = arena.insert(three, 0x7000_0000_0000_0008, 5, 50)?.edition;
    arena.drop(two)?;
    let beside = arena.insert(chained, 0xf000_0000_0000_0008, 4, 60)?.edition;
    arena.drop(chained)?;
    arena.change(beside, 0x26, 1, 11)?;
    Ok(arena.into_words())
}

/// A first insert's root branch over a single, a root that is an entry, two branches of which one is shared, and a share.
fn without_a_chain(degree: u64) -> Result<Vec<u64>, Refusal> {
    let sizes = Sizes { degree, branches: 8, entries: 6, editions: 6 };
    let mut arena = Arena::formatted(vec![0; sizes.words()?], sizes)?;
    let empty = arena.new_edition()?;
    let one = arena.insert(empty, 1, 7, 1)?.edition;
    let two = arena.insert(one, 1 + degree, 8, 2)?.edition;
    arena.remove(two, 1, 7)?;
    let three = arena.insert(two, 2, 7, 3)?.edition;
    arena.drop(two)?;
    arena.share(three)?;
    let other = arena.insert(empty, 3, 9, 4)?.edition;
    arena.drop(empty)?;
    arena.drop(one)?;
    arena.insert(other, 2, 9, 5)?;
    Ok(arena.into_words())
}

/// A larger arena of a few thousand words, after so many random calls that it may well be full. An edition grows and shrinks;
/// others are made on the side, and dropped where there is no room.
pub fn larger(degree: u64, random: &mut Random) -> Result<Vec<u64>, Refusal> {
    let branches = (BRANCH_WORDS / (3 + degree)).max(4 * depths(degree)) + random.below(20);
    let sizes = Sizes { degree, branches, entries: 20 + random.below(100), editions: 2 + random.below(7) };
    let mut arena = Arena::formatted(vec![0; sizes.words()?], sizes)?;
    let pairs = pairs(degree, 5 + random.below(60), random);
    let mut newest = arena.new_edition()?;
    for _ in 0..20 + random.below(200) {
        let held: Vec<Edition> = arena.held().collect();
        let edition = if random.percent(70) { newest } else { *random.of(&held) };
        let (hash, key) = *random.of(&pairs);
        let made = match random.below(20) {
            0 => arena.share(edition),
            1..6 => arena.remove(edition, hash, key).map(|update| update.edition),
            _ => arena.insert(edition, hash, key, random.below(100)).map(|update| update.edition),
        };
        match made {
            Ok(made) if edition == newest => newest = made,
            Err(Refusal::NoSlot | Refusal::NoBranchCells | Refusal::NoEntryCells) => {
                let dropped = *random.of(&held);
                if dropped != newest {
                    arena.drop(dropped)?;
                }
            }
            _ => (),
        }
    }
    Ok(arena.into_words())
}

/// Hashes and keys of which some collide, some differ low, some high, and some in the last depth's segment alone.
fn pairs(degree: u64, count: u64, random: &mut Random) -> Vec<(u64, u64)> {
    let base = random.word();
    let pair = |at: u64| match random.below(5) {
        0 => (base, at),
        1 => (random.below(2 * degree), at % 3),
        2 => (random.below(16) << 60, at % 3),
        3 => (base ^ (random.below(4) << 62), at % 3),
        _ => (random.word(), at),
    };
    (0..count).map(pair).collect()
}
