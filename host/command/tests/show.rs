//! Drawings of larger editions.
mod common;
use common::Folder;

/// Triples whose hashes often agree in many low bits, or in all.
fn triples() -> String {
    let hash = |at: u64| [at, at << 60, at << 33 | 5, 0x7000_0000_0000_0008][(at % 4) as usize];
    (0..120).map(|at| format!("{} {at} {}\n", hash(at), 10 * at)).collect()
}

/// What stands behind a name in a line, up to a comma or a blank.
fn part<'a>(line: &'a str, name: &str) -> &'a str {
    let behind = line.split_once(name).map(|(_, behind)| behind).unwrap_or_default();
    behind.split([',', ' ']).next().unwrap_or_default()
}

#[test]
fn a_drawing_has_the_entries_of_the_listing() {
    for degree in [2, 4, 8, 16, 32, 64] {
        let folder = Folder::new();
        folder.done(&format!("format @a --degree {degree} --branches 2000 --entries 400 --editions 4"));
        folder.done("new @a");
        folder.write("t", triples());
        folder.done("load @a 0 @t");
        let listing = folder.done("list @a 1");
        let drawing = folder.done("show @a 1 --lines 1000");
        let listed: Vec<Vec<&str>> = listing
            .lines()
            .filter(|line| line.contains("0x"))
            .map(|line| line.split_whitespace().skip(1).collect())
            .collect();
        let drawn: Vec<Vec<&str>> = drawing
            .lines()
            .filter(|line| line.contains("hash "))
            .map(|line| ["hash ", "key ", "value "].map(|name| part(line, name)).into())
            .collect();
        assert_eq!(drawn.len(), 120);
        assert_eq!(drawn, listed, "degree {degree}");
        assert!(drawing.contains("chain of 30\n"), "degree {degree}: {drawing}");
    }
}

#[test]
fn a_drawing_is_cut() {
    let folder = Folder::with_shelf("--branches 100 --entries 400 --editions 8");
    let drawing = folder.done("show @a 5 --lines 3");
    assert!(drawing.ends_with("\n4 of 5 entries are left out after 3 lines\n"), "{drawing}");
    assert_eq!(folder.done("show @a 5 --lines 9").lines().count(), 11);
    folder.write("t", (0..300).map(|at| format!("8 {at} 0\n")).collect::<String>());
    folder.done("load @a 5 @t");
    let drawing = folder.done("show @a 6");
    assert_eq!(drawing.lines().count(), 204);
    assert!(drawing.ends_with("\n109 of 305 entries are left out after 200 lines\n"), "{drawing}");
}
