//! Document 01's shelf table through the binary, as a person would run it.
mod common;
use common::{Folder, SHELF};

const SIZES: &str = "--degree 16 --branches 100 --entries 100 --editions 8";

const LISTING: &str = "\
place                hash  key  value
    0                0x42  0x3     30
    1                0x16  0x2     20
    2                0x26  0x1     10
    3  0x7000000000000008  0x5     50
    4  0x7000000000000008  0x4     40

5 of 5 entries
";

const TREE: &str = "\
edition 5: 5 entries, degree 16

• depth 0
├─ 2  hash 0x42, key 0x3, value 30
├─ 6  • depth 1
│  ├─ 1  hash 0x16, key 0x2, value 20
│  └─ 2  hash 0x26, key 0x1, value 10
└─ 8  • depths 1 to 15, by 0 0 0 0 0 0 0 0 0 0 0 0 0 0
   └─ 7  chain of 2
      ├─ hash 0x7000000000000008, key 0x5, value 50
      └─ hash 0x7000000000000008, key 0x4, value 40
";

/// A drawing without the cells, which the library is free to choose.
fn without_cells(drawing: &str) -> String {
    drawing.lines().map(|line| line.split("  [").next().unwrap_or_default().to_string() + "\n").collect()
}

#[test]
fn k1_to_k5() {
    let folder = Folder::new();
    let said = |line: &str| {
        let ran = folder.spawn(line);
        assert_eq!((ran.status, ran.err.as_str()), (0, ""), "{line}");
        ran.out
    };
    assert_eq!(said(&format!("format a {SIZES}")), "2,536 words, 20,288 bytes\n");
    assert_eq!(said("new a"), "edition 0\n");
    let branches = ["1 branch cell", "2 branch cells", "1 branch cell", "1 branch cell", "16 branch cells"];
    for (of, (entry, branches)) in SHELF.iter().zip(branches).enumerate() {
        let made = said(&format!("insert a {of} {entry}"));
        assert_eq!(made, format!("edition {}: {branches} and 1 entry cell taken\n", of + 1));
    }
    assert_eq!(said("list a 5"), LISTING);
    assert_eq!(without_cells(&said("show a 5")), TREE);
    assert_eq!(said("get a 5 0x26 0x1"), "10\n");
    assert_eq!(said("check a"), "sound\n");
    let info = said("info a");
    assert!(info.contains("branch cells   100      21    79\n entry cells   100       5    95\n"), "{info}");
    for edition in 0..5 {
        said(&format!("drop a {edition}"));
    }
    let info = said("info a");
    assert!(info.contains("branch cells   100      17    83\n entry cells   100       5    95\n"), "{info}");
    assert!(info.ends_with("edition  entries\n      5        5\n"), "{info}");
    assert_eq!(said("list a 5"), LISTING);
    assert_eq!(folder.names(), ["a", "a.lock"]);
}

#[test]
fn k6_to_k9() {
    let folder = Folder::with_shelf(SIZES);
    assert_eq!(
        folder.done("change @a 5 0x7000000000000008 4 41"),
        "edition 6: 16 branch cells and 2 entry cells taken\n"
    );
    assert_eq!(folder.done("equal @a 5 6"), "different\n");
    assert_eq!(folder.done("drop @a 6"), "edition 6 is dropped: 16 branch cells and 2 entry cells freed\n");
    assert_eq!(folder.done("remove @a 5 0x7000000000000008 4"), "edition 6: 1 branch cell and 1 entry cell taken\n");
    folder.done("drop @a 6");
    assert_eq!(folder.done("remove @a 5 0x7000000000000008 5"), "edition 6: 1 branch cell and 0 entry cells taken\n");
    assert_eq!(folder.done("equal @a 4 6"), "equal\n");
    folder.done("drop @a 6");
    assert_eq!(folder.done("remove @a 2 0x26 1"), "edition 6: 0 branch cells and 0 entry cells taken\n");
    let drawing = without_cells(&folder.done("show @a 6"));
    assert_eq!(drawing, "edition 6: 1 entry, degree 16\n\nhash 0x16, key 0x2, value 20\n");
    assert_eq!(folder.done("share @a 6"), "edition 7\n");
    assert_eq!(folder.done("show @a 0"), "edition 0: 0 entries, degree 16\n");
    assert_eq!(folder.done("list @a 0"), "0 of 0 entries\n");
    assert_eq!(folder.done("check @a"), "sound\n");
}

#[test]
fn a_part_of_a_listing() {
    let folder = Folder::with_shelf(SIZES);
    let part = "place  hash  key  value\n    1  0x16  0x2     20\n    2  0x26  0x1     10\n\n2 of 5 entries\n";
    assert_eq!(folder.done("list @a 5 --from 1 --count 2"), part);
    assert_eq!(folder.done("list @a 5 --from=0x5"), "0 of 5 entries\n");
}

#[test]
fn tags() {
    let folder = Folder::new();
    assert_eq!(folder.done("tag 3005,1042"), "(3005,1042): private element 42 of block 10, key 0x30051042\n");
    assert_eq!(folder.done("tag (3005,0010)"), "(3005,0010): creator of block 10, key 0x30050010\n");
    assert_eq!(folder.done("tag 8,10"), "(0008,0010): public, key 0x80010\n");
    assert_eq!(folder.done("tag 3005,0100"), "(3005,0100): private, unassigned, key 0x30050100\n");
}
