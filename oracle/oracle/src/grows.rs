//! Stored answers whose calls only make editions: nothing is removed and no edition dropped, so that each call can be made
//! on a shelf that has no more than insert and change. Most runs come several times, the same calls in arenas that have
//! exactly the cells needed, or one too few of a kind: then the last update that needs it is refused.
use crate::answers::{A, B, C, D, E};
use crate::calls::{Answer, Call, Cells, number};
use crate::paper;
use crate::random::Random;
use crate::recorder::{MOST_WORDS, Recorder, change, insert};
use crate::runs::{Hashes, Pair, Player, pool};

/// Words that a run may need for slots and entries; the others are for branches.
const BESIDE_BRANCHES: u64 = 1024;

/// How many updates there is room for if each makes a branch at every depth.
fn deep_updates(degree: u64) -> u64 {
    let (_, depths) = paper::row(degree).expect("a degree of the table");
    (MOST_WORDS - BESIDE_BRANCHES) / (u64::from(depths) * (3 + degree))
}

/// Makes a call, and looks at what is in use where it is refused: nothing was taken.
fn told(to: &mut Recorder, call: Call) -> Answer {
    let answer = to.call(call);
    if answer.number != number::DONE {
        to.done(Call::InUse);
    }
    answer
}

/// Lists every edition that is held: the older ones are what they were.
fn all_listed(to: &mut Recorder) {
    some_listed(to, 1);
}

/// Lists the newest edition and one of so many of those before it.
fn some_listed(to: &mut Recorder, of: usize) {
    let held: Vec<u64> = to.both.rpds.held().collect();
    held.iter().rev().step_by(of).for_each(|edition| to.list(*edition));
    to.done(Call::InUse);
}

/// Inserts some pairs one after the other, each into the edition that the one before it made.
fn grown(to: &mut Recorder, from: u64, pairs: &[Pair]) -> u64 {
    pairs.iter().fold(from, |edition, pair| to.insert(edition, *pair, 10 * pair.1))
}

/// K1 to K6, and the inserts of "Also run".
fn shelf_table(to: &mut Recorder) {
    let empty = to.new_edition();
    let mut edition = empty;
    for (pair, value) in [(A, 10), (B, 20), (C, 30), (D, 40), (E, 50)] {
        edition = to.insert(edition, pair, value);
        to.done(Call::InUse);
    }
    let with_6 = to.insert(edition, (D.0, 6), 60);
    let key_4 = to.insert(edition, (C.0, 4), 40);
    for pair in [D, E, (D.0, 6), (C.0, 4)] {
        to.get(edition, pair);
        to.get(with_6, pair);
        to.get(key_4, pair);
    }
    let k6 = to.insert(edition, D, 41);
    to.equal(edition, k6);
    all_listed(to);
}

/// K11 and K12: at their degrees document 01's.
fn far_apart(to: &mut Recorder) {
    let empty = to.new_edition();
    let one = to.insert(empty, (0, 1), 1);
    let two = to.insert(one, (1 << 63, 1), 2);
    let other = to.insert(empty, (1 << 63, 1), 2);
    let also_two = to.insert(other, (0, 1), 1);
    to.equal(two, also_two);
    to.equal(one, other);
    all_listed(to);
}

fn nothing_there(to: &mut Recorder) {
    let one = to.new_edition();
    let two = to.new_edition();
    to.equal(one, two);
    to.list(one);
    told(to, Call::Get { edition: one, hash: A.0, key: A.1 });
    told(to, change(one, A, 1));
    told(to, Call::List { edition: one, place: 1, room: 0 });
    let made = to.insert(one, A, 10);
    to.equal(one, made);
    for pair in [B, (A.0, 2), (A.0 + 1, A.1)] {
        told(to, Call::Get { edition: made, hash: pair.0, key: pair.1 });
        told(to, change(made, pair, 1));
    }
    told(to, Call::List { edition: made, place: 0, room: 2 });
    told(to, Call::List { edition: made, place: 2, room: 3 });
    all_listed(to);
}

/// Each of three children is changed, and then written again with the value that it had.
fn three_children(to: &mut Recorder) {
    let empty = to.new_edition();
    let pairs: [Pair; 3] = [(0, 7), (1, 7), (to.degree - 1, 8)];
    let three = grown(to, empty, &pairs);
    for pair in pairs {
        let changed = to.change(three, pair, 9);
        let back = to.insert(changed, pair, 10 * pair.1);
        to.equal(three, changed);
        to.equal(three, back);
    }
    all_listed(to);
}

/// A chain whose first, last and middle entry are written anew, each on the same edition, and a single beside the chain.
fn chain(to: &mut Recorder) {
    let hash = 0x0123_4567_89ab_cdef;
    let length = (deep_updates(to.degree) - 5).min(6);
    let empty = to.new_edition();
    let keys: Vec<Pair> = (1..=length).map(|key| (hash, key)).collect();
    let full = grown(to, empty, &keys);
    told(to, change(full, (hash, length + 1), 1));
    to.get(full, (hash, length + 1));
    to.insert(full, (hash ^ 1, 1), 99);
    for key in [length, 1] {
        let same = to.insert(full, (hash, key), 10 * key);
        let changed = to.change(full, (hash, key), 51);
        to.equal(full, same);
        to.equal(full, changed);
        to.get(changed, (hash, key));
    }
    to.change(full, (hash, length / 2), 52);
    all_listed(to);
}

/// Up to four segments of the last depth, and a second key under two of the hashes.
fn last_depth(to: &mut Recorder) {
    let (bits, depths) = paper::row(to.degree).expect("a degree of the table");
    let last = (depths - 1) * bits;
    let hashes: Vec<u64> = (0..(1 << (64 - last)).min(4)).map(|segment: u64| 5 ^ (segment << last)).collect();
    let singles: Vec<Pair> = hashes.iter().map(|hash| (*hash, 3)).collect();
    let empty = to.new_edition();
    let full = grown(to, empty, &singles);
    let chained = grown(to, full, &[(hashes[0], 4), (hashes[1], 4)]);
    to.change(full, singles[1], 7);
    to.change(chained, singles[0], 8);
    told(to, change(full, (hashes[0], 4), 9));
    all_listed(to);
}

fn ends_of_the_range(to: &mut Recorder) {
    let ends = [0, u64::MAX];
    let mut edition = to.new_edition();
    for hash in ends {
        for key in ends {
            edition = to.insert(edition, (hash, key), !key);
            to.get(edition, (hash, !key));
            to.get(edition, (!hash, key));
        }
    }
    for place in 0..=5 {
        for room in [0, 2, 3, 5, 6, 11, 12, 14] {
            to.call(Call::List { edition, place, room });
        }
    }
    all_listed(to);
}

/// Editions that were made of one and the same, of older ones, and of a share.
fn side_by_side(to: &mut Recorder) {
    let empty = to.new_edition();
    let base = grown(to, empty, &[A, B, D, E]);
    let with_c = to.insert(base, C, 3);
    let also_with_c = to.insert(base, C, 3);
    let shared = to.done(Call::Share { edition: base });
    to.equal(with_c, also_with_c);
    to.equal(base, shared);
    for edition in 0..base {
        to.insert(edition, C, 3);
    }
    let changed = to.change(shared, D, 44);
    to.equal(base, shared);
    to.equal(base, changed);
    to.change(base, E, 55);
    all_listed(to);
}

/// 5 before 6, 6 before 7, and 7 before room: no cell is free either.
fn slots(to: &mut Recorder) {
    let first = to.new_edition();
    let second = to.insert(first, A, 1);
    to.done(Call::Share { edition: second });
    for edition in [3, 4, u64::MAX] {
        told(to, Call::Get { edition, hash: A.0, key: A.1 });
        told(to, Call::Equal { first, second: edition });
        told(to, Call::Equal { first: edition, second: first });
        told(to, Call::List { edition, place: 9, room: 0 });
        told(to, Call::Share { edition });
        told(to, insert(edition, B, 1));
        told(to, change(edition, B, 1));
    }
    told(to, change(second, B, 1));
    told(to, insert(second, B, 1));
    told(to, change(second, A, 1));
    told(to, Call::NewEdition);
    told(to, Call::Share { edition: first });
    all_listed(to);
}

/// Inserts until the cells are short: what needs too many is refused, and what needs fewer still goes in. Each fourth pair
/// has a long path in common with the first.
fn until_full(seed: u64) -> impl Fn(&mut Recorder) {
    move |to| {
        let mut random = Random::new(&[seed, to.degree]);
        let mut pairs = pool(Hashes::Random, to.degree, 32, &mut random);
        let first = pairs[0].0;
        pairs.iter_mut().skip(3).step_by(4).for_each(|pair| pair.0 = first ^ (pair.1 << 58));
        let mut newest = to.new_edition();
        for pair in pairs {
            let answer = told(to, insert(newest, pair, 7));
            if answer.number == number::DONE {
                newest = answer.values[0];
            }
        }
        some_listed(to, 7);
    }
}

/// A run of random calls.
fn played(hashes: Hashes, count: u64, updates: u64, seed: u64) -> impl Fn(&mut Recorder) {
    move |to| {
        let mut random = Random::new(&[seed, to.degree, hashes as u64]);
        let pool = pool(hashes, to.degree, count, &mut random);
        let mut player = Player::growing(pool, updates, 30, random);
        while let Some(call) = player.next(&to.both.rpds) {
            let answer = told(to, call);
            player.saw(&call, &answer);
        }
        some_listed(to, 5);
    }
}

/// The same calls once more, in whatever room there is; one of them at least is answered with this number.
fn again(calls: &[Call], number: u64) -> impl Fn(&mut Recorder) {
    move |to| {
        let mut is_seen = false;
        for (at, call) in calls.iter().enumerate() {
            let answer = to.call(*call);
            is_seen |= answer.number == number;
            // as `told` does, which may have left its own look among the calls
            if answer.number != number::DONE && calls.get(at + 1) != Some(&Call::InUse) {
                to.done(Call::InUse);
            }
        }
        assert!(is_seen, "degree {}: nothing answers {number}", to.degree);
    }
}

/// A run in an arena of exactly the cells that it needs, and the same calls with a cell too few of one kind, then of the
/// other, then of both.
fn in_each_room(to: &mut Recorder, title: &str, editions: u64, script: impl Fn(&mut Recorder)) {
    let (calls, Cells { branches, entries }) = Recorder::rehearsed(to.degree, editions, &script);
    to.run_within(&format!("{title}, exactly the cells needed"), Cells { branches, entries }, editions, script);
    for (short, less, number) in [
        ("a branch cell too few", Cells { branches: branches - 1, entries }, number::NO_BRANCH_CELLS),
        ("an entry cell too few", Cells { branches, entries: entries - 1 }, number::NO_ENTRY_CELLS),
        ("one of each too few", Cells { branches: branches - 1, entries: entries - 1 }, number::NO_BRANCH_CELLS),
    ] {
        to.run_within(&format!("{title}, {short}"), less, editions, again(&calls, number));
    }
}

/// A run in an arena of as many words as there may be.
fn in_a_large_room(to: &mut Recorder, title: &str, editions: u64, script: impl Fn(&mut Recorder)) {
    let entries = 100;
    let branches = (MOST_WORDS - 12 - 3 * editions - 6 * entries) / (3 + to.degree);
    to.run_within(title, Cells { branches, entries }, editions, script);
}

/// The calls at a degree.
pub fn file(degree: u64, seed: u64) -> String {
    let deep = deep_updates(degree).min(20);
    let mut to = Recorder::new(degree);
    to.text = format!(
        "# Calls at degree {degree} that only make editions, with the answers of rpds 1.2.1. Written by the oracle, which \
         says how to read it (oracle/README.md); seed {seed}.\n"
    );
    in_each_room(&mut to, "the shelf table", 9, shelf_table);
    in_a_large_room(&mut to, "hashes 0 and 2^63", 6, far_apart);
    in_a_large_room(&mut to, "nothing there", 3, nothing_there);
    in_a_large_room(&mut to, "three children", 11, three_children);
    in_each_room(&mut to, "a chain", 24, chain);
    in_each_room(&mut to, "singles and chains at the last depth", 10, last_depth);
    in_a_large_room(&mut to, "the ends of the range", 5, ends_of_the_range);
    in_each_room(&mut to, "editions side by side", 14, side_by_side);
    to.run("slots", 3, slots);
    let few = Cells { branches: 3000 / (3 + degree), entries: 50 };
    to.run_within("until the branch cells are short", few, 40, until_full(seed));
    let few = Cells { branches: 6000 / (3 + degree), entries: 9 };
    to.run_within("until the entry cells are short", few, 40, until_full(seed));
    in_each_room(&mut to, "colliding hashes", deep, played(Hashes::Colliding, 16, deep, seed));
    in_a_large_room(&mut to, "low bits", 36, played(Hashes::LowBits, 20, 40, seed));
    in_a_large_room(&mut to, "high bits", 20, played(Hashes::HighBits, 12, 24, seed));
    in_a_large_room(&mut to, "last depth", 20, played(Hashes::LastDepth, 12, 24, seed));
    in_each_room(&mut to, "mixed", deep + 4, played(Hashes::Mixed, 20, deep + 4, seed));
    to.text += &format!("t {:x}\n", to.calls);
    to.text
}
