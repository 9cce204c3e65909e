//! Document 01's shelf table: what each update takes, and what its edition lists.
use super::*;
use shelf::Cells;

type Answer = Result<(), Refusal>;

const fn cells(branches: u64, entries: u64) -> Cells {
    Cells { branches, entries }
}

#[test]
fn k1_to_k5_take_what_the_table_says() -> Answer {
    let mut arena = Arena::owned(SIZES).expect("the system has the words");
    let mut edition = arena.new_edition()?;
    let table = [(A, cells(1, 1)), (B, cells(2, 1)), (C, cells(1, 1)), (D, cells(1, 1)), (E, cells(16, 1))];
    for (entry, taken) in table {
        let update = put(&mut arena, edition, entry)?;
        assert_eq!(update.taken, taken, "{entry:?}");
        edition = update.edition;
    }
    assert_eq!(listed(&arena, edition)?, [C, B, A, E, D]);
    Ok(())
}

#[test]
fn editions_share_their_cells() -> Answer {
    let (mut arena, k) = k1_to_k5(SIZES);
    assert_eq!(arena.in_use()?, cells(21, 5));
    let freed: Vec<Cells> = k[..5].iter().map(|edition| arena.drop(*edition)).collect::<Result<_, _>>()?;
    assert_eq!(freed, [cells(0, 0), cells(1, 0), cells(1, 0), cells(1, 0), cells(1, 0)]);
    assert_eq!(arena.in_use()?, cells(17, 5));
    assert_eq!(listed(&arena, k[5])?, [C, B, A, E, D]);
    assert!(is_sound(&arena));
    assert_eq!(arena.drop(k[5])?, cells(17, 5));
    assert_eq!(arena.in_use()?, cells(0, 0));
    Ok(())
}

#[test]
fn k6_to_k8_go_on_from_k5() -> Answer {
    let (mut arena, k) = k1_to_k5(SIZES);
    let d_41 = Entry { value: 41, ..D };
    let k6 = put(&mut arena, k[5], d_41)?;
    assert_eq!((k6.taken, listed(&arena, k6.edition)?), (cells(16, 2), vec![C, B, A, d_41, E]));
    let k7 = arena.remove(k[5], D.hash, D.key)?;
    assert_eq!((k7.taken, listed(&arena, k7.edition)?), (cells(1, 1), vec![C, B, A, E]));
    let k8 = arena.remove(k[5], E.hash, E.key)?;
    assert_eq!((k8.taken, listed(&arena, k8.edition)?), (cells(1, 0), vec![C, B, A, D]));
    assert_eq!(listed(&arena, k[5])?, [C, B, A, E, D]);
    assert!(is_sound(&arena));
    Ok(())
}

#[test]
fn k9_leaves_an_entry_as_root_and_k10_goes_on_from_it() -> Answer {
    let (mut arena, k) = k1_to_k5(SIZES);
    let k9 = arena.remove(k[2], A.hash, A.key)?;
    assert_eq!((k9.taken, listed(&arena, k9.edition)?), (cells(0, 0), vec![B]));
    assert_eq!(root(&arena, k9.edition) % 2, 1);
    let k10 = put(&mut arena, k9.edition, A)?;
    assert_eq!((k10.taken, listed(&arena, k10.edition)?), (cells(2, 1), vec![B, A]));
    Ok(())
}

#[test]
fn k11_and_k12_part_at_the_last_depth() -> Answer {
    for (degree, branches) in [(64, 11), (8, 22)] {
        let mut arena = Arena::owned(Sizes { degree, ..SIZES }).expect("the system has the words");
        let empty = arena.new_edition()?;
        let first = arena.insert(empty, 0, 1, 10)?.edition;
        assert_eq!(arena.insert(first, 1 << 63, 2, 20)?.taken, cells(branches, 1), "degree {degree}");
    }
    Ok(())
}

#[test]
fn a_third_key_under_one_hash_comes_and_goes() -> Answer {
    let (mut arena, k) = k1_to_k5(SIZES);
    let sixth = arena.insert(k[5], D.hash, 6, 60)?;
    assert_eq!(sixth.taken, cells(16, 1));
    let without = arena.remove(sixth.edition, D.hash, 6)?;
    assert_eq!(without.taken, cells(16, 0));
    assert!(arena.equal(without.edition, k[5])?);
    assert!(!arena.equal(sixth.edition, k[5])?);
    Ok(())
}

#[test]
fn the_other_cases_of_the_paper() -> Answer {
    let (mut arena, k) = k1_to_k5(SIZES);
    let k6 = arena.change(k[5], D.hash, D.key, 41)?;
    assert_eq!(k6.taken, cells(16, 2));
    assert_eq!(arena.remove(k6.edition, D.hash, D.key)?.taken, cells(1, 0));
    assert_eq!(arena.insert(k[5], C.hash, D.key, 44)?.taken, cells(16, 1));
    let bare = arena.remove(k[1], A.hash, A.key)?;
    assert_eq!((bare.taken, root(&arena, bare.edition)), (cells(0, 0), 0));
    Ok(())
}

#[test]
fn equal_editions_may_differ_in_the_order_of_a_chain() -> Answer {
    let (mut arena, k) = k1_to_k5(SIZES);
    let turned = put(&mut arena, k[5], D)?.edition;
    assert_eq!(listed(&arena, turned)?, [C, B, A, D, E]);
    assert!(arena.equal(turned, k[5])?);
    Ok(())
}

/// The reference of an edition's root, from its slot.
fn root<W: Deref<Target = [u64]>>(arena: &Arena<W>, edition: Edition) -> u64 {
    arena.words()[12 + 3 * edition.number() as usize + 1]
}
