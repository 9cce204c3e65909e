//! Loads: good triples, wrong lines, too many, and too few slots.
mod common;
use common::Folder;
use std::io::Write;
use std::process::Stdio;

const TRIPLES: &str =
    "# the shelf\n0x26 1 10\n\n  0x16\t2 2_0  # B\r\n0x42 3 30\n0x7000000000000008 4 40\n0x7000000000000008 5 50";

fn empty(sizes: &str) -> Folder {
    let folder = Folder::new();
    folder.done(&format!("format @a {sizes}"));
    folder.done("new @a");
    folder
}

#[test]
fn a_load_adds_one_edition() {
    let folder = empty("--branches 80 --entries 20 --editions 4");
    folder.write("t", TRIPLES);
    let made = folder.done("load @a 0 @t");
    assert_eq!(made, "edition 1: 5 entries put in, 5 in all, 17 branch cells and 5 entry cells taken\n");
    assert_eq!(folder.done("load @a 1 @t").split(':').next(), Some("edition 2"));
    assert_eq!(folder.done("equal @a 1 2"), "equal\n");
    assert!(folder.done("info @a").ends_with("      0        0\n      1        5\n      2        5\n"));
    assert_eq!(folder.done("check @a"), "sound\n");
    assert_eq!(folder.names(), ["a", "a.lock", "t"]);
}

#[test]
fn triples_come_by_standard_input() {
    let folder = empty("--branches 50 --entries 10 --editions 4");
    let mut child = folder.binary("load a 0 -").stdin(Stdio::piped()).stdout(Stdio::piped()).spawn().expect("it runs");
    let mut input = child.stdin.take().expect("a pipe");
    input.write_all(TRIPLES.as_bytes()).expect("it reads");
    drop(input);
    let ran = child.wait_with_output().expect("it ends");
    assert_eq!(ran.status.code(), Some(0));
    assert!(ran.stdout.starts_with(b"edition 1: 5 entries put in"));
}

#[test]
fn no_triples_share_the_edition() {
    let folder = empty("--branches 50 --entries 10 --editions 2");
    folder.write("t", "# nothing\n\n");
    let made = folder.done("load @a 0 @t");
    assert_eq!(made, "edition 1: 0 entries put in, 0 in all, 0 branch cells and 0 entry cells taken\n");
    folder.fails("load @a 0 @t", 7, "no slot (7)");
}

#[test]
fn a_wrong_line_changes_nothing() {
    let folder = empty("--branches 50 --entries 10 --editions 4");
    let wrong = [
        ("1 2", "`1 2` is not a hash, a key and a value"),
        ("1 2 3 4", "`1 2 3 4` is not a hash, a key and a value"),
        ("1 2 x", "`x` is not a number"),
        ("1 2 \u{1b}[31m", "`\\u{1b}[31m` is not a number"),
        ("1, 2, 3", "`1,` is not a number"),
    ];
    for (line, words) in wrong {
        folder.write("t", format!("1 1 1\n\n{line}\n2 2 2\n"));
        folder.fails("load @a 0 @t", 64, &format!("t, line 3: {words}"));
    }
    folder.write("t", [b"1 1 1\n2 2 ".to_vec(), vec![0xff], b"\n".to_vec()].concat());
    folder.fails("load @a 0 @t", 64, "t, line 2: ");
    folder.write("t", "7".repeat(5_000));
    folder.fails("load @a 0 @t", 64, "t, line 1: the line is longer than 4,096 bytes; nothing is changed");
    folder.fails("load @a 0 @none", 74, "none cannot be read");
    assert_eq!(folder.run("load @a 0 /dev/zero").status, 64);
}

#[test]
fn a_refused_step_changes_nothing() {
    let folder = empty("--branches 3 --entries 3 --editions 4");
    folder.write("many", "1 1 1\n2 2 2\n3 3 3\n4 4 4\n");
    folder.fails("load @a 0 @many", 9, "no entry cells (9): ");
    folder.fails("load @a 0 @many", 9, "many, line 4: ");
    folder.write("deep", "1 1 1\n0x1000000000000001 2 2\n");
    folder.fails("load @a 0 @deep", 8, "deep, line 2: ");
    folder.fails("load @a 3 @deep", 5, "no such edition (5)");
    folder.done("new @a");
    folder.done("new @a");
    folder.write("one", "1 1 1");
    folder.fails("load @a 0 @many", 7, "a load of more than one entry needs two free slots, and there is one");
    assert_eq!(folder.done("load @a 0 @one").split(':').next(), Some("edition 3"));
    folder.fails("load @a 0 @one", 7, "every slot holds an edition");
    assert_eq!(folder.done("check @a"), "sound\n");
}
