//! How large an arena has to be for the measurements: counted from the hashes, so that hardly a cell is left over.
use crate::keys::{BATCH, Keys};
use shelf::Sizes;

/// Branches of a trie, and how many of them are on its longest path.
struct Branches {
    count: u64,
    longest_path: u64,
}

/// Counts the branches of a trie with these hashes, which are all different.
///
/// In the order of their lowest bits first, the hashes below a branch stand side by side. Two neighbours that agree in
/// so many whole segments are both below one more branch than that, the root being the first; the branches that the
/// neighbours before them had in common are not counted again.
fn branches(hashes: impl Iterator<Item = u64>, degree: u64) -> Branches {
    let mut sorted: Vec<u64> = hashes.map(u64::reverse_bits).collect();
    sorted.sort_unstable();
    let bits = degree.trailing_zeros();
    let shared = |pair: &[u64]| u64::from((pair[0] ^ pair[1]).leading_zeros() / bits) + 1;
    let mut branches = Branches { count: 1, longest_path: 1 };
    let mut before = 1;
    for path in sorted.windows(2).map(shared) {
        branches.count += path.saturating_sub(before);
        branches.longest_path = branches.longest_path.max(path);
        before = path;
    }
    branches
}

/// The sizes of an arena in which an edition of all the keys' entries has room, those added included, and beside it as
/// many editions as are kept at once.
pub fn sizes(degree: u64, keys: &Keys) -> Sizes {
    let hashes = keys.present.iter().chain(&keys.added).map(|entry| entry.hash);
    let Branches { count, longest_path } = branches(hashes, degree);
    // An update takes a path before the old edition's is let go, so there is one more than are kept.
    let updates = BATCH as u64 + 1;
    Sizes {
        degree,
        branches: count + updates * longest_path,
        entries: (keys.present.len() + keys.added.len()) as u64 + updates,
        editions: 2 * BATCH as u64,
    }
}

#[cfg(test)]
mod tests {
    use super::*;

    #[test]
    fn branches_are_counted_as_document_01_makes_them() {
        let count = |hashes: &[u64], degree| {
            let Branches { count, longest_path } = branches(hashes.iter().copied(), degree);
            (count, longest_path)
        };
        assert_eq!(count(&[0x26], 16), (1, 1));
        assert_eq!(count(&[0x26, 0x16], 16), (2, 2));
        assert_eq!(count(&[0x26, 0x16, 0x42], 16), (2, 2));
        assert_eq!(count(&[0x126, 0x226, 0x026, 0x42, 0x52], 16), (4, 3));
        assert_eq!(count(&[0, 1 << 63], 64), (11, 11));
        assert_eq!(count(&[0, 1 << 63], 8), (22, 22));
    }
}
