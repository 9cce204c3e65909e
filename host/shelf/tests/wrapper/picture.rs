//! The picture of K5 in docs/ARENA.md, held to the words of the arena that it shows.
use super::*;

const PAGE: &str = include_str!("../../../../docs/ARENA.md");
const SIZES: Sizes = Sizes { degree: 16, branches: 24, entries: 8, editions: 6 };

/// A slot or a cell of the picture: its kind and number, the word it starts at, and the words that stand below that.
#[derive(Debug)]
struct Drawn {
    kind: &'static str,
    number: usize,
    at: usize,
    words: Vec<u64>,
}

fn section() -> &'static str {
    let (_, rest) = PAGE.split_once("## A picture of K5\n").expect("the page has the section");
    rest.split("\n## ").next().unwrap_or(rest)
}

/// A number of the picture, hexadecimal if it ends in h.
fn number(text: &str) -> Option<u64> {
    match text.strip_suffix('h') {
        Some(digits) => u64::from_str_radix(digits, 16).ok(),
        None => text.parse().ok(),
    }
}

/// What a line draws, its words being those of the line below from the same column on.
fn drawn(line: &'static str, below: &str) -> Vec<Drawn> {
    let one = |kind: &'static str, byte: usize| {
        let (cell, at) = line[byte + kind.len()..].split_once(", at word ")?;
        let at: String = at.chars().take_while(char::is_ascii_digit).collect();
        let column = line[..byte].chars().count();
        let below: String = below.chars().skip(column).collect();
        let words = below.split("  ").map_while(number).collect();
        Some(Drawn { kind, number: cell.trim().parse().ok()?, at: at.parse().ok()?, words })
    };
    let kinds = ["slot", "branch cell", "entry cell"];
    kinds.iter().flat_map(|kind| line.match_indices(kind).filter_map(|(byte, _)| one(kind, byte))).collect()
}

fn picture() -> Vec<Drawn> {
    section().lines().zip(section().lines().skip(1)).flat_map(|(line, below)| drawn(line, below)).collect()
}

/// The arena of the picture: K5, and no other edition.
fn k5_alone() -> Result<Vec<u64>, Refusal> {
    let (mut arena, k) = k1_to_k5(SIZES);
    for edition in &k[..5] {
        arena.drop(*edition)?;
    }
    Ok(arena.words().to_vec())
}

#[test]
fn the_header_is_drawn_as_it_is() -> Result<(), Refusal> {
    let line = section().lines().find_map(|line| line.trim().strip_prefix("header:")).expect("the header is drawn");
    let drawn: Vec<u64> = line.split_whitespace().filter_map(number).collect();
    assert_eq!(drawn, k5_alone()?[..12]);
    Ok(())
}

#[test]
fn slots_and_cells_are_drawn_as_they_are() -> Result<(), Refusal> {
    let words = k5_alone()?;
    for drawn in picture() {
        let (start, length) = match drawn.kind {
            "slot" => (12, 3),
            "branch cell" => (words[6] as usize, 19),
            _ => (words[7] as usize, 6),
        };
        assert_eq!(drawn.at, start + length * drawn.number, "{drawn:?}");
        let mut whole = drawn.words.clone();
        whole.resize(length, 0);
        assert!(drawn.words.len() >= 2 && words[drawn.at..drawn.at + length] == whole, "{drawn:?}");
    }
    Ok(())
}

#[test]
fn every_cell_is_drawn_or_like_its_neighbours() -> Result<(), Refusal> {
    let words = k5_alone()?;
    let mut seen: Vec<(&str, usize)> = picture().iter().map(|drawn| (drawn.kind, drawn.number)).collect();
    for cell in 7..=17 {
        let at = words[6] as usize + 19 * cell;
        assert_eq!(words[at..at + 4], [1, 20 - cell as u64, 1, 2 * cell as u64]);
        seen.push(("branch cell", cell));
    }
    seen.sort_unstable();
    let branches = (0..24).map(|cell| ("branch cell", cell));
    let entries = (0..8).map(|cell| ("entry cell", cell));
    assert!(seen.iter().copied().eq(branches.chain(entries).chain([("slot", 5)])), "{seen:?}");
    assert!(words[12..27].iter().all(|word| *word == 0));
    Ok(())
}
