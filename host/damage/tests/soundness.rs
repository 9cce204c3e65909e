//! Arenas laid out by hand, and whether they are sound: by the plain decision, and by the library's check.
use damage::plain::{Cell, Kind, Layout, depths};
use damage::shape::settle;
use damage::soundness::is_sound;
use shelf::{Arena, Sizes};

/// What a reference shows.
enum Trie {
    /// Hash and key of each entry, the front first; one is a single.
    Leaf(Vec<(u64, u64)>),
    /// The children with their segments, in the order in which they are laid out.
    Branch(Vec<(u64, Trie)>),
}

use Trie::{Branch, Leaf};

fn single(hash: u64, key: u64) -> Trie {
    Leaf(vec![(hash, key)])
}

/// Branches from a depth on, one below the other, on the path of a hash down to a trie.
fn path(degree: u64, hash: u64, from: u64, to: u64, end: Trie) -> Trie {
    let bits = u64::from(degree.ilog2());
    let segment = |depth: u64| (hash >> (depth * bits)) % degree;
    (from..to).rev().fold(end, |below, depth| Branch(vec![(segment(depth), below)]))
}

/// An arena under way.
struct Laid {
    words: Vec<u64>,
    layout: Layout,
    used: [usize; 2],
}

impl Laid {
    fn new(degree: u64) -> Laid {
        let sizes = Sizes { degree, branches: 2 * depths(degree) + 4, entries: 8, editions: 4 };
        let at_branches = 12 + 3 * sizes.editions;
        let at_entries = at_branches + sizes.branches * sizes.branch_words();
        let mut words = vec![0; sizes.words().expect("sizes that there are")];
        words[..8].copy_from_slice(&[1, degree, sizes.branches, 8, 4, 12, at_branches, at_entries]);
        let layout = Layout::read(&words).expect("a right header");
        Laid { words, layout, used: [0, 0] }
    }

    /// Writes all words of the next cell of a kind but its count, and answers its reference.
    fn cell(&mut self, kind: Kind, words: &[u64]) -> u64 {
        let cell = Cell { kind, number: self.used[kind as usize] };
        self.used[kind as usize] += 1;
        let start = self.layout.cell_at(cell).start + 1;
        self.words[start..start + words.len()].copy_from_slice(words);
        cell.reference()
    }

    fn lay(&mut self, trie: &Trie, depth: u64) -> u64 {
        match trie {
            Leaf(entries) => (1..)
                .zip(entries.iter().rev())
                .fold(0, |next, (length, (hash, key))| self.cell(Kind::Entry, &[length, next, *hash, *key, 10 * key])),
            Branch(children) => {
                let bitmap = children.iter().fold(0, |bitmap, (segment, _)| bitmap | 1 << segment);
                let kids: Vec<u64> = children.iter().map(|(_, child)| self.lay(child, depth + 1)).collect();
                self.cell(Kind::Branch, &[vec![depth, bitmap], kids].concat())
            }
        }
    }

    /// The words with these roots held, and counts, sizes and free chains put right.
    fn held(mut self, roots: &[u64]) -> Vec<u64> {
        for (slot, root) in roots.iter().enumerate() {
            let at = self.layout.slot_at(slot);
            self.words[at].copy_from_slice(&[1, *root, 0]);
        }
        settle(&mut self.words);
        self.words
    }
}

/// An arena of a degree that holds one edition.
fn arena(degree: u64, trie: &Trie) -> Vec<u64> {
    let mut laid = Laid::new(degree);
    let root = laid.lay(trie, 0);
    laid.held(&[root])
}

/// What the plain decision and the library's check both say.
fn judged(words: &[u64]) -> bool {
    let sound = is_sound(words);
    let checked = Arena::over(words).check(&mut vec![0; words.len()]).is_ok();
    assert_eq!(sound, checked, "check does not agree");
    sound
}

fn is_trie(degree: u64, trie: Trie) -> bool {
    judged(&arena(degree, &trie))
}

const CHAINED: u64 = 0x7000_0000_0000_0008;

#[test]
fn tries_that_the_rules_build() {
    for degree in damage::arenas::DEGREES {
        let last = depths(degree);
        let chain = || Leaf(vec![(CHAINED, 5), (CHAINED, 4)]);
        assert!(judged(&Laid::new(degree).held(&[])), "no edition");
        assert!(judged(&Laid::new(degree).held(&[0, 0])), "two without entries");
        assert!(is_trie(degree, single(CHAINED, 4)), "a root that is an entry");
        assert!(is_trie(degree, Branch(vec![(0, single(8, 1))])) == (8 % degree == 0), "a first insert");
        assert!(is_trie(degree, Branch(vec![(0, single(0, 1)), (1, single(1, 1))])), "two children");
        let two = Branch(vec![(0, single(1, 1)), (1, single(1 + degree, 1))]);
        assert!(is_trie(degree, Branch(vec![(1, two)])), "a branch whose only child is a branch");
        assert!(is_trie(degree, path(degree, CHAINED, 0, last, chain())), "a chain at the last depth");
        let beside = Branch(last_children(degree, chain(), single(CHAINED ^ 1 << 63, 4)));
        assert!(is_trie(degree, path(degree, CHAINED, 0, last - 1, beside)), "a single beside a chain");
    }
}

/// Two children below the last branch, the second under a hash with its first bit set.
fn last_children(degree: u64, one: Trie, two: Trie) -> Vec<(u64, Trie)> {
    let shift = (depths(degree) - 1) * u64::from(degree.ilog2());
    vec![(CHAINED >> shift, one), ((CHAINED ^ 1 << 63) >> shift, two)]
}

#[test]
fn tries_that_the_rules_do_not_build() {
    for degree in damage::arenas::DEGREES {
        let last = depths(degree);
        let chain = |keys: [u64; 2]| Leaf(keys.map(|key| (CHAINED, key)).to_vec());
        assert!(!is_trie(degree, Branch(vec![])), "a root without children");
        assert!(!is_trie(degree, Branch(vec![(0, Branch(vec![])), (1, single(1, 1))])), "a branch without children");
        assert!(!is_trie(degree, Branch(vec![(1, Branch(vec![(0, single(1, 1))]))])), "a lone single below the root");
        assert!(
            !is_trie(degree, path(degree, CHAINED, 0, last, single(CHAINED, 4))),
            "a lone single at the last depth"
        );
        assert!(!is_trie(degree, Branch(vec![(0, single(1, 1))])), "another segment than the hash has");
        assert!(!is_trie(degree, Branch(vec![(1, single(1, 1)), (0, single(0, 1))])), "children in another order");
        assert!(!is_trie(degree, chain([5, 4])), "a chain as root");
        assert!(!is_trie(degree, path(degree, CHAINED, 0, last - 1, chain([5, 4]))), "a chain above the last depth");
        assert!(!is_trie(degree, path(degree, CHAINED, 0, last, chain([4, 4]))), "a key twice");
        let mixed = Leaf(vec![(CHAINED, 5), (CHAINED ^ 1, 4)]);
        assert!(!is_trie(degree, path(degree, CHAINED, 0, last, mixed)), "two hashes in a chain");
    }
}

#[test]
fn no_branch_stands_at_the_last_depth_or_below() {
    for degree in damage::arenas::DEGREES {
        let two = || Branch(vec![(0, single(CHAINED, 4)), (1, single(CHAINED, 5))]);
        assert!(!is_trie(degree, path(degree, CHAINED, 0, depths(degree), two())));
        let chain = Leaf(vec![(CHAINED, 5), (CHAINED, 4)]);
        assert!(!is_trie(degree, path(degree, CHAINED, 0, depths(degree), Branch(vec![(0, chain)]))));
    }
}

#[test]
fn the_last_depth_has_the_segments_that_a_hash_has_there() {
    let chain = |hash: u64| Leaf(vec![(hash, 5), (hash, 4)]);
    let at_last = |segment: u64| path(8, 0, 0, 21, Branch(vec![(segment, chain(segment << 63))]));
    assert!(is_trie(8, at_last(0)));
    assert!(is_trie(8, at_last(1)));
    assert!(!is_trie(8, at_last(2)), "bit 64 of a hash is not there");
}

/// Three editions: two that share cells, one of them twice.
fn shared() -> Vec<u64> {
    let mut laid = Laid::new(16);
    let one = laid.lay(&single(0x26, 1), 1);
    let two = laid.lay(&single(0x42, 3), 1);
    let first = laid.cell(Kind::Branch, &[0, 1 << 6, one]);
    let second = laid.cell(Kind::Branch, &[0, 1 << 2 | 1 << 6, two, one]);
    laid.held(&[first, second, second])
}

#[test]
fn editions_share_cells() {
    let words = shared();
    assert!(judged(&words));
    let layout = Layout::read(&words).expect("a right header");
    let count = |reference: u64| words[layout.cell_at(layout.cell(reference).expect("a cell")).start];
    assert_eq!([count(3), count(5), count(2), count(4)], [2, 1, 1, 2]);
    assert_eq!(words[8..12], [6, 7, 2, 2]);
    assert_eq!(words[12..24], [1, 2, 1, 1, 4, 2, 1, 4, 2, 0, 0, 0]);
}

/// Whether the shared editions stay sound if a word is another.
fn is_sound_with(at: usize, word: u64) -> bool {
    let mut words = shared();
    words[at] = word;
    judged(&words)
}

#[test]
fn each_sentence_about_words_counts() {
    let (free_slot, free_branch, entry) = (12 + 9, 24 + 2 * 19, 24 + 36 * 19);
    for at in 0..8 {
        assert!(!is_sound_with(at, shared()[at] + 1), "word {at} of the header");
    }
    assert!(!is_sound_with(8, 8), "a free branch left out");
    assert!(!is_sound_with(9, 0), "no free entry");
    assert!(!is_sound_with(10, 3), "branch cells in use");
    assert!(!is_sound_with(11, 1), "entry cells in use");
    assert!(!is_sound_with(12, 2), "held is 0 or 1");
    assert!(!is_sound_with(14, 2), "another size");
    assert!(!is_sound_with(free_slot + 1, 2), "a root in a slot that is not held");
    assert!(!is_sound_with(free_slot + 2, 1), "a size in a slot that is not held");
    assert!(is_sound_with(free_slot, 1), "one more edition without entries");
    assert!(!is_sound_with(free_branch, 1), "a count of a free cell");
    assert!(!is_sound_with(free_branch + 1, 6), "a free chain that comes back");
    assert!(!is_sound_with(free_branch + 18, 1), "a word of a free cell");
    assert!(!is_sound_with(entry, 1), "a count too low");
    assert!(!is_sound_with(entry + 1, 2), "a chain length");
    assert!(!is_sound_with(entry + 2, 5), "a next");
    assert!(is_sound_with(entry + 3, 0x36), "a hash with the same first segment");
    assert!(!is_sound_with(entry + 3, 0x27), "a hash with another first segment");
    assert!(is_sound_with(entry + 4, 3), "a key");
    assert!(is_sound_with(entry + 5, u64::MAX), "a value");
}

#[test]
fn the_slice_may_be_longer_and_not_shorter() {
    let mut words = shared();
    words.extend([7, 7, 7]);
    assert!(judged(&words));
    words.truncate(words.len() - 4);
    assert!(!judged(&words));
    assert!(!judged(&words[..11]));
    assert!(!judged(&[]));
}

#[test]
fn free_cells_may_be_chained_in_any_order() {
    let mut words = shared();
    // Entries 2 and 3 are free: 3 first, then 2, then the others.
    let at = |number: usize| 24 + 36 * 19 + 6 * number;
    assert_eq!((words[9], words[at(2) + 1], words[at(3) + 1]), (7, 9, 11));
    (words[9], words[at(3) + 1], words[at(2) + 1]) = (9, 7, 11);
    assert!(judged(&words));
    words[at(2) + 1] = 9;
    assert!(!judged(&words), "a chain that goes round");
}
