//! Damaged files: every command ends, says so where it can tell, and changes nothing that is refused.
mod common;
use common::Folder;

/// K5 alone, in an arena with little room to spare.
fn small() -> Folder {
    let folder = Folder::with_shelf("--branches 22 --entries 6 --editions 6");
    for edition in 0..4 {
        folder.done(&format!("drop @a {edition}"));
    }
    folder
}

const READING: [&str; 7] = [
    "info @b",
    "check @b",
    "list @b 5",
    "show @b 5",
    "get @b 5 0x7000000000000008 4",
    "equal @b 4 5",
    "show @b 4 --json --lines 0xffff_ffff_ffff_ffff",
];

const CHANGING: [&str; 6] = [
    "new @b",
    "share @b 5",
    "insert @b 5 0x43 9 90",
    "change @b 5 0x7000000000000008 4 41",
    "remove @b 5 0x26 1",
    "drop @b 5",
];

/// Runs a line on the file `b` with these bytes: it answers by a number of document 01, with a sentence for a refusal.
fn run_on(folder: &Folder, bytes: &[u8], line: &str) -> u8 {
    folder.write("b", bytes);
    let ran = folder.run(line);
    assert!(ran.status <= 12, "{line}: {ran:?}");
    assert_eq!(ran.status == 0, ran.err.is_empty(), "{line}: {ran:?}");
    assert!(ran.out.len() < 100_000, "{line}: {} bytes", ran.out.len());
    if ran.status != 0 {
        assert!(folder.read("b") == bytes, "{line}: a refused command changed the file");
    }
    ran.status
}

/// The file with one word replaced.
fn with_word(bytes: &[u8], at: usize, word: u64) -> Vec<u8> {
    let mut bytes = bytes.to_vec();
    bytes[8 * at..8 * at + 8].copy_from_slice(&word.to_le_bytes());
    bytes
}

fn word(bytes: &[u8], at: usize) -> u64 {
    u64::from_le_bytes(bytes[8 * at..8 * at + 8].try_into().expect("eight bytes"))
}

#[test]
fn a_file_cut_anywhere_is_damaged() {
    let folder = small();
    let whole = folder.read("a");
    for length in 0..whole.len() {
        let line = READING[length % READING.len()];
        assert_eq!(run_on(&folder, &whole[..length], line), 4, "{line} at {length} bytes");
    }
    for length in (0..whole.len()).step_by(97) {
        let line = CHANGING[length % CHANGING.len()];
        assert_eq!(run_on(&folder, &whole[..length], line), 4, "{line} at {length} bytes");
    }
}

#[test]
fn each_byte_turned() {
    let folder = small();
    let whole = folder.read("a");
    for at in 0..whole.len() {
        let mut bytes = whole.clone();
        bytes[at] ^= 1 << (at % 8);
        for line in READING {
            let status = run_on(&folder, &bytes, line);
            assert!(line != "check @b" || status == 4 || may_differ(&whole, at / 8), "byte {at}");
        }
        if at % 101 == 0 {
            CHANGING.iter().for_each(|line| _ = run_on(&folder, &bytes, line));
        }
    }
}

/// Whether an arena with another number for this word may be sound: hash, key or value of an entry, or the first word
/// of a slot that is not held, which would hold an edition without entries.
fn may_differ(bytes: &[u8], at: usize) -> bool {
    let [branches, entries] = [6, 7].map(|offset| word(bytes, offset) as usize);
    let (slot, cell) = ((12..branches).contains(&at), at.checked_sub(entries).map(|at| at % 6));
    (slot && at.is_multiple_of(3) && word(bytes, at) == 0)
        || cell.is_some_and(|part| part >= 3 && word(bytes, at - part) > 0)
}

#[test]
fn random_bytes() {
    let folder = small();
    let header = folder.read("a")[..96].to_vec();
    let mut state = 1_u64;
    let mut random = || {
        state = state.wrapping_mul(6_364_136_223_846_793_005).wrapping_add(1_442_695_040_888_963_407);
        state >> 33
    };
    for round in 0..300 {
        let mut bytes: Vec<u8> = (0..8 * (random() % 700)).map(|_| random() as u8).collect();
        assert_eq!(run_on(&folder, &bytes, READING[round % READING.len()]), 4);
        assert_eq!(run_on(&folder, &bytes, CHANGING[round % CHANGING.len()]), 4);
        // Behind a right header small numbers are often references.
        bytes = (0..word(&header, 7) + 36).flat_map(|_| (random() % 48).to_le_bytes()).collect();
        bytes[..96].copy_from_slice(&header);
        bytes = with_word(&bytes, 12 + 3 * 5, 1);
        READING.iter().for_each(|line| _ = run_on(&folder, &bytes, line));
        _ = run_on(&folder, &bytes, CHANGING[round % CHANGING.len()]);
    }
}

#[test]
fn an_empty_file_is_damaged() {
    let folder = small();
    for line in READING.iter().chain(&CHANGING) {
        assert_eq!(run_on(&folder, &[], line), 4, "{line}");
    }
    assert_eq!(run_on(&folder, &[], "load @b 0 /dev/null"), 4);
}

#[test]
fn a_listing_ends_where_the_size_is_wrong() {
    let folder = small();
    let size = 12 + 3 * 5 + 2;
    for (wrong, words) in [(u64::MAX, "of 6 cells for them"), (7, "of 6 cells"), (6, "the listing ends before")] {
        folder.write("a", with_word(&folder.read("a"), size, wrong));
        let ran = folder.fails("list @a 5", 4, words);
        assert_eq!(ran.out.lines().filter(|line| line.contains("0x")).count(), 5, "{}", ran.out);
        let ran = folder.fails("list @a 5 --json", 4, words);
        assert!(ran.out.starts_with("{\"number\":4,\"refusal\":\"damaged\",\"size\":"), "{}", ran.out);
        assert_eq!(folder.run("list @a 5 --count 2").status, if wrong > 6 { 4 } else { 0 });
        folder.fails("show @a 5", 4, "but the tree has 5");
    }
    folder.write("a", with_word(&folder.read("a"), size, u64::MAX));
    folder.fails("list @a 5 --from 0xffff_ffff_ffff_ffff", 4, "of 6 cells");
    folder.fails("list @a 5 --from 0xffff_ffff_ffff_fffe", 4, "of 6 cells");
}

#[test]
fn a_drawing_says_where_words_are_wrong() {
    let folder = small();
    let whole = folder.read("a");
    let (branches, entries) = (word(&whole, 6) as usize, word(&whole, 7) as usize);
    let root = word(&whole, 12 + 3 * 5 + 1);
    let top = branches + 19 * (root as usize / 2 - 1);
    let chain = entries + 6 * 4;
    let wrongs = [
        (12 + 3 * 5 + 1, 1, "reference 1 names no entry cell"),
        (12 + 3 * 5 + 1, 2 * 22 + 2, "reference 46 names no branch cell"),
        (12 + 3 * 5 + 1, u64::MAX, "names no entry cell"),
        (top + 1, 1, "says depth 1 at depth 0"),
        (top + 2, 0, "has the bitmap 0x0"),
        (top + 2, 1 << 16, "has the bitmap 0x10000"),
        (top + 3, 0, "reference 0 names no branch cell"),
        (top + 5, root, "says depth 0 at depth 1"),
        (entries + 1, 2, "has a chain length of 2 and the next reference 0"),
        (entries + 3, 0x27, "has the hash 0x27, which does not lead here"),
        (chain + 1, 3, "in the place of 2"),
        (chain + 1, u64::MAX, "in the place of 18446744073709551614"),
        (chain + 2, 11, "in the place of 1"),
        (chain + 2, 4, "reference 4 names no entry cell"),
    ];
    for (at, wrong, words) in wrongs {
        folder.write("a", with_word(&whole, at, wrong));
        let ran = folder.fails("show @a 5", 4, "where words are wrong");
        let here = ran.out.lines().find(|line| line.contains("damaged here: "));
        assert!(here.is_some_and(|line| line.contains(words)), "{words}: {}", ran.out);
        let ran = folder.fails("show @a 5 --json", 4, "where words are wrong");
        assert!(ran.out.contains("\"damaged\":\""), "{}", ran.out);
    }
}

#[test]
fn a_tree_that_names_its_branches_again_and_again_is_cut() {
    let folder = Folder::new();
    folder.done("format @a --degree 64 --branches 11 --entries 1 --editions 2");
    folder.done("new @a");
    folder.done("insert @a 0 0 0 0");
    let mut bytes = folder.read("a");
    let branches = word(&bytes, 6) as usize;
    // Each branch has the next one for all its children, so that the tree would have more rows than can be counted.
    for depth in 0..10 {
        let at = branches + 67 * depth;
        bytes = with_word(&with_word(&bytes, at + 1, depth as u64), at + 2, u64::MAX);
        (0..64).for_each(|child| bytes = with_word(&bytes, at + 3 + child, 2 * (depth as u64 + 1) + 2));
    }
    let last = branches + 67 * 10;
    for (at, word) in [(last + 1, 10), (last + 2, 1), (last + 3, 3), (12 + 3 + 1, 2)] {
        bytes = with_word(&bytes, at, word);
    }
    folder.write("a", bytes);
    let ran = folder.fails("show @a 1 --lines 0xffff_ffff_ffff_ffff", 4, "more rows than the arena has cells for");
    assert!(ran.out.contains("are left out after 13 lines\n"), "{ran:?}");
    let ran = folder.run("list @a 1");
    assert!(ran.status <= 12 && ran.out.len() < 1_000, "{ran:?}");
}
