//! The stored answers: for each degree a file of calls with what the crate answers to them, small runs that show one thing
//! each and then random ones; a second one whose calls only make editions; and a file for the modules below the trie.
use crate::calls::{Call, Cells, number};
use crate::random::Random;
use crate::recorder::{Recorder, change, insert, remove};
use crate::runs::{Hashes, Pair, Player, pool};
use crate::{DEGREES, grows, leaves, paper};

/// No file has more bytes.
const MOST_BYTES: usize = 65536;

// The entries of the shelf table.
pub(crate) const A: Pair = (0x26, 1);
pub(crate) const B: Pair = (0x16, 2);
pub(crate) const C: Pair = (0x42, 3);
pub(crate) const D: Pair = (0x7000_0000_0000_0008, 4);
pub(crate) const E: Pair = (0x7000_0000_0000_0008, 5);

/// K1 to K10 and "Also run". At degree 16 they are document 01's; at another they are what the crate answers there.
fn shelf_table(to: &mut Recorder) {
    let empty = to.new_edition();
    let k1 = to.insert(empty, A, 10);
    let k2 = to.insert(k1, B, 20);
    let k3 = to.insert(k2, C, 30);
    let k4 = to.insert(k3, D, 40);
    let k5 = to.insert(k4, E, 50);
    to.done(Call::InUse);
    to.list(k5);
    let k6 = to.insert(k5, D, 41);
    to.list(k6);
    let k7 = to.remove(k5, D);
    let k8 = to.remove(k5, E);
    to.equal(k7, k8);
    let k9 = to.remove(k2, A);
    to.list(k9);
    let k10 = to.insert(k9, A, 10);
    to.equal(k10, k2);
    let with_6 = to.insert(k5, (D.0, 6), 60);
    let without_6 = to.remove(with_6, (D.0, 6));
    to.equal(without_6, k5);
    let from_6 = to.remove(k6, D);
    let key_4 = to.insert(k5, (C.0, 4), 40);
    to.list(key_4);
    let none = to.remove(k1, A);
    to.equal(none, empty);
    to.drop_all(&[empty, k6, k7, k8, k9, k10, with_6, without_6, from_6, key_4, none]);
    to.done(Call::InUse);
    to.drop_all(&[k1, k2, k3, k4]);
    to.done(Call::InUse);
    to.list(k5);
    to.drop_all(&[k5]);
    to.done(Call::InUse);
}

/// K11 and K12: at their degrees document 01's.
fn far_apart(to: &mut Recorder) {
    let empty = to.new_edition();
    let one = to.insert(empty, (0, 1), 1);
    let two = to.insert(one, (1 << 63, 1), 2);
    to.list(two);
    let left = to.remove(two, (1 << 63, 1));
    to.list(left);
    to.equal(one, left);
}

fn nothing_there(to: &mut Recorder) {
    let one = to.new_edition();
    let two = to.new_edition();
    to.equal(one, two);
    to.list(one);
    to.get(one, A);
    to.refused(change(one, A, 1), number::ABSENT);
    to.refused(remove(one, A), number::ABSENT);
    to.refused(Call::List { edition: one, place: 1, room: 0 }, number::BEYOND_THE_END);
    let made = to.insert(one, A, 10);
    to.equal(one, made);
    to.refused(change(made, B, 1), number::ABSENT);
    to.refused(remove(made, B), number::ABSENT);
    let none = to.remove(made, A);
    to.equal(none, two);
    to.done(Call::InUse);
}

/// Each of three children is changed and taken out; one that drags others with it shows.
fn three_children(to: &mut Recorder) {
    let empty = to.new_edition();
    let pairs: [Pair; 3] = [(0, 7), (1, 7), (to.degree - 1, 8)];
    let three = pairs.iter().fold(empty, |edition, pair| to.step(edition, insert(edition, *pair, pair.0 + 1)));
    to.list(three);
    for pair in pairs {
        let changed = to.change(three, pair, 9);
        to.list(changed);
        let removed = to.remove(three, pair);
        to.list(removed);
        to.equal(three, changed);
        to.equal(three, removed);
        let back = to.insert(removed, pair, 9);
        to.equal(back, changed);
        to.drop_all(&[changed, removed, back]);
    }
    to.list(three);
}

fn root_entry(to: &mut Recorder) {
    let empty = to.new_edition();
    let one = to.insert(empty, A, 1);
    let two = to.insert(one, B, 2);
    let root = to.remove(two, A);
    to.get(root, B);
    to.get(root, A);
    to.get(root, (B.0, 3));
    to.list(root);
    let changed = to.change(root, B, 22);
    let replaced = to.insert(changed, B, 222);
    to.list(replaced);
    to.refused(remove(replaced, A), number::ABSENT);
    let chained = to.insert(replaced, (B.0, 3), 3);
    to.list(chained);
    let apart = to.insert(replaced, C, 3);
    to.list(apart);
    let none = to.remove(root, B);
    to.equal(none, empty);
    to.done(Call::InUse);
}

/// A chain of fourteen, and a single beside it below the last branch.
fn chain_of_14(to: &mut Recorder) {
    let hash = 0x0123_4567_89ab_cdef;
    let beside = (hash ^ (1 << 63), 0);
    let empty = to.new_edition();
    let one = to.step(empty, insert(empty, beside, 99));
    let full = (1..=14).fold(one, |edition, key| to.step(edition, insert(edition, (hash, key), key)));
    to.list(full);
    for key in [14, 13, 7, 1] {
        let pair = (hash, key);
        to.get(full, pair);
        // the first writes the same value again: an equal edition, in another order unless the key was in front
        for update in [insert(full, pair, key), change(full, pair, 51), remove(full, pair)] {
            let made = to.done(update);
            to.list(made);
            to.equal(full, made);
            to.drop_all(&[made]);
        }
    }
    to.get(full, (hash, 15));
    to.refused(change(full, (hash, 15), 1), number::ABSENT);
    to.refused(remove(full, (hash, 15)), number::ABSENT);
    to.list(full);
    let keys = [14, 1, 8, 2, 13, 3, 12, 7, 4, 11, 6, 10];
    let two = keys.iter().fold(full, |edition, key| to.step(edition, remove(edition, (hash, *key))));
    to.list(two);
    let singles = to.step(two, remove(two, (hash, 5)));
    to.list(singles);
    let alone = to.step(singles, remove(singles, beside));
    to.list(alone);
    to.done(Call::InUse);
}

/// Every segment of the last depth, up to four of them, and again taken out: compressed up to the root at last.
fn last_depth(to: &mut Recorder) {
    let (bits, depths) = paper::row(to.degree).expect("a degree of the table");
    let last = (depths - 1) * bits;
    let hashes: Vec<u64> = (0..(1 << (64 - last)).min(4)).map(|segment: u64| 5 ^ (segment << last)).collect();
    let empty = to.new_edition();
    let full = hashes.iter().fold(empty, |edition, hash| to.step(edition, insert(edition, (*hash, 3), *hash)));
    to.list(full);
    let held = to.done(Call::Share { edition: full });
    hashes.iter().fold(full, |edition, hash| {
        let left = to.step(edition, remove(edition, (*hash, 3)));
        to.list(left);
        left
    });
    to.list(held);
    to.done(Call::InUse);
}

fn ends_of_the_range(to: &mut Recorder) {
    let ends = [0, u64::MAX];
    let empty = to.new_edition();
    let mut edition = empty;
    for hash in ends {
        for key in ends {
            edition = to.step(edition, insert(edition, (hash, key), !key));
            to.get(edition, (hash, !key));
            to.get(edition, (!hash, key));
        }
    }
    to.list(edition);
    for place in 0..=5 {
        for room in [0, 2, 3, 5, 6, 11, 12, 14] {
            to.call(Call::List { edition, place, room });
        }
    }
    for hash in ends {
        edition = to.step(edition, remove(edition, (hash, u64::MAX)));
        to.list(edition);
    }
}

/// Editions that were made of one and the same, and what is left when each is dropped.
fn side_by_side(to: &mut Recorder) {
    let empty = to.new_edition();
    let base = [A, B, D, E].iter().fold(empty, |edition, pair| to.step(edition, insert(edition, *pair, pair.1)));
    let with_c = to.insert(base, C, 3);
    let also_with_c = to.insert(base, C, 3);
    let without_d = to.remove(base, D);
    let also_without_d = to.remove(base, D);
    let shared = to.done(Call::Share { edition: base });
    to.equal(with_c, also_with_c);
    to.equal(without_d, also_without_d);
    to.equal(base, shared);
    to.equal(base, with_c);
    for edition in [base, with_c, also_without_d, shared, without_d, also_with_c] {
        to.done(Call::InUse);
        to.drop_all(&[edition]);
    }
    to.done(Call::InUse);
}

/// 5 before 6, 6 before 7, 7 before room; the lowest free slot.
fn slots(to: &mut Recorder) {
    let first = to.new_edition();
    let second = to.insert(first, A, 1);
    let third = to.done(Call::Share { edition: second });
    for edition in [3, 4, u64::MAX] {
        to.refused(Call::Get { edition, hash: A.0, key: A.1 }, number::NO_SUCH_EDITION);
        to.refused(Call::Equal { first, second: edition }, number::NO_SUCH_EDITION);
        to.refused(Call::Equal { first: edition, second: first }, number::NO_SUCH_EDITION);
        to.refused(remove(edition, B), number::NO_SUCH_EDITION);
        to.refused(Call::Drop { edition }, number::NO_SUCH_EDITION);
    }
    to.refused(remove(second, B), number::ABSENT);
    to.refused(change(second, B, 1), number::ABSENT);
    for update in [insert(second, B, 1), change(second, A, 1), remove(second, A)] {
        to.refused(update, number::NO_SLOT);
    }
    to.refused(Call::NewEdition, number::NO_SLOT);
    to.refused(Call::Share { edition: first }, number::NO_SLOT);
    to.drop_all(&[third, first]);
    to.refused(Call::Size { edition: first }, number::NO_SUCH_EDITION);
    let lowest = to.insert(second, B, 1);
    let next = to.change(second, A, 9);
    to.equal(lowest, next);
    to.done(Call::InUse);
}

/// The third insert needs the most cells of both kinds: with one too few of either it is refused, and nothing changes.
fn fills_up(to: &mut Recorder) {
    let empty = to.new_edition();
    let one = to.insert(empty, D, 4);
    let two = to.insert(one, E, 5);
    let third = to.call(insert(two, D, 44));
    to.done(Call::InUse);
    to.list(two);
    if third.number == number::DONE {
        to.list(third.values[0]);
        to.drop_all(&[third.values[0]]);
    }
    let left = to.remove(two, D);
    to.list(left);
    to.done(Call::InUse);
}

/// A run of random calls.
fn played(hashes: Hashes, count: u64, updates: u64, seed: u64) -> impl Fn(&mut Recorder) {
    move |to| {
        let mut random = Random::new(&[seed, to.degree, hashes as u64]);
        let pool = pool(hashes, to.degree, count, &mut random);
        let mut player = Player::new(pool, updates, 30, random);
        while let Some(call) = player.next(&to.both.rpds) {
            let answer = to.call(call);
            player.saw(&call, &answer);
        }
        let held: Vec<u64> = to.both.rpds.held().collect();
        held.iter().for_each(|edition| to.list(*edition));
        to.done(Call::InUse);
        to.drop_all(&held);
        to.done(Call::InUse);
    }
}

/// A map of some hundreds of entries under random hashes, built, listed, changed and taken down in part.
fn hundreds(count: u64, seed: u64) -> impl Fn(&mut Recorder) {
    move |to| {
        let mut random = Random::new(&[seed, to.degree]);
        let pool = pool(Hashes::Random, to.degree, count, &mut random);
        let empty = to.new_edition();
        let full = pool.iter().fold(empty, |edition, pair| to.step(edition, insert(edition, *pair, pair.1 & 15)));
        to.list(full);
        for _ in 0..20 {
            to.get(full, *random.of(&pool));
        }
        let held = to.done(Call::Share { edition: full });
        let mut edition = full;
        for _ in 0..20 {
            edition = to.step(edition, change(edition, *random.of(&pool), 16));
        }
        for pair in pool.iter().skip(1).step_by(4) {
            edition = to.step(edition, remove(edition, *pair));
        }
        for _ in 0..20 {
            to.get(edition, *random.of(&pool));
        }
        to.equal(edition, held);
        to.done(Call::InUse);
        let size = to.done(Call::Size { edition });
        to.done(Call::List { edition, place: size / 2, room: 60 });
        to.drop_all(&[edition]);
        to.done(Call::List { edition: held, place: count / 2, room: 60 });
        to.drop_all(&[held]);
        to.done(Call::InUse);
    }
}

/// The calls at a degree.
fn file(degree: u64, seed: u64) -> String {
    let mut to = Recorder::new(degree);
    to.text = format!(
        "# Calls at degree {degree} with the answers of rpds 1.2.1. Written by the oracle, which says how to read it \
         (oracle/README.md); seed {seed}.\n"
    );
    to.run("the shelf table", 18, shelf_table);
    to.run("hashes 0 and 2^63", 4, far_apart);
    to.run("nothing there", 4, nothing_there);
    to.run("three children", 4, three_children);
    to.run("a root that is an entry", 9, root_entry);
    to.run("a chain of 14", 3, chain_of_14);
    to.run("singles at the last depth", 3, last_depth);
    to.run("the ends of the range", 2, ends_of_the_range);
    to.run("editions side by side", 7, side_by_side);
    to.run("slots", 3, slots);
    let Cells { branches, entries } = to.run("exactly the cells needed", 4, fills_up);
    to.run_within("a branch cell too few", Cells { branches: branches - 1, entries }, 4, fills_up);
    to.run_within("an entry cell too few", Cells { branches, entries: entries - 1 }, 4, fills_up);
    let short = Cells { branches: branches - 1, entries: entries - 1 };
    to.run_within("a cell of each kind too few", short, 4, fills_up);
    to.run("colliding hashes", 4, played(Hashes::Colliding, 30, 50, seed));
    to.run("low bits", 4, played(Hashes::LowBits, 40, 50, seed));
    to.run("high bits", 4, played(Hashes::HighBits, 12, 50, seed));
    to.run("last depth", 4, played(Hashes::LastDepth, 12, 50, seed));
    to.run("mixed", 4, played(Hashes::Mixed, 20, 60, seed));
    to.run("hundreds", 3, hundreds(if degree == 64 { 200 } else { 250 }, seed));
    to.text += &format!("t {:x}\n", to.calls);
    to.text
}

/// The files, each with its name.
pub fn files(seed: u64) -> Vec<(String, String)> {
    let degrees = DEGREES.map(|degree| (format!("degree_{degree:02}"), file(degree, seed)));
    let growing = DEGREES.map(|degree| (format!("grows_{degree:02}"), grows::file(degree, seed)));
    let leaves = [("leaves".to_string(), leaves::file(seed))];
    let files: Vec<_> = degrees.into_iter().chain(growing).chain(leaves).collect();
    for (name, text) in &files {
        assert!(text.len() <= MOST_BYTES, "{name} has {} bytes", text.len());
    }
    files
}
