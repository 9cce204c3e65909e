//! Each refusal, by a call that is given it; and that a refused call alters nothing.
use super::*;

/// What a call is refused with, once it is seen that no word was altered.
fn refused<T: std::fmt::Debug>(
    words: &mut [u64],
    call: impl FnOnce(&mut Arena<&mut [u64]>) -> Result<T, Refusal>,
) -> Refusal {
    let before = words.to_vec();
    let refusal = call(&mut Arena::over(&mut *words)).expect_err("the call is refused");
    assert_eq!(words, before);
    refusal
}

/// The words of an arena in which two editions are held: 0 without entries, and 1 with A alone.
fn one_entry(branches: u64, entries: u64, editions: u64) -> Vec<u64> {
    let sizes = Sizes { degree: 16, branches, entries, editions };
    let mut arena = Arena::formatted(vec![0; sizes.words().expect("small")], sizes).expect("as many words as it takes");
    let empty = arena.new_edition().expect("a slot is free");
    put(&mut arena, empty, A).expect("there is room");
    arena.into_words()
}

const FIRST: Edition = Edition(1);

#[test]
fn format_refuses_degrees_sizes_and_short_slices() {
    let words = &mut one_entry(4, 4, 2)[..];
    let sizes = Sizes { degree: 16, branches: 4, entries: 4, editions: 2 };
    for degree in [0, 1, 3, 128, u64::MAX] {
        assert_eq!(refused(words, |arena| arena.format(Sizes { degree, ..sizes })), Refusal::BadDegree);
    }
    let out_of_range = [
        Sizes { branches: 0, ..sizes },
        Sizes { branches: Sizes::MOST_BRANCHES + 1, ..sizes },
        Sizes { entries: 0, ..sizes },
        Sizes { entries: Sizes::MOST_ENTRIES + 1, ..sizes },
        Sizes { editions: 0, ..sizes },
        Sizes { editions: u64::MAX, ..sizes },
    ];
    for sizes in out_of_range {
        assert_eq!(refused(words, |arena| arena.format(sizes)), Refusal::BadSizes);
        assert_eq!(sizes.words(), Err(Refusal::BadSizes));
    }
    assert_eq!(refused(words, |arena| arena.format(Sizes { branches: 5, ..sizes })), Refusal::SliceTooShort);
    assert_eq!(refused(&mut [], |arena| arena.format(sizes)), Refusal::SliceTooShort);
}

#[test]
fn every_call_but_format_refuses_a_wrong_header() {
    let right = one_entry(4, 4, 3);
    let mut wrong: Vec<Vec<u64>> = (0..8).map(|at| [&right[..at], &[77], &right[at + 1..]].concat()).collect();
    wrong.extend([vec![], right[..11].to_vec(), right[..right.len() - 1].to_vec()]);
    for words in &mut wrong {
        assert_eq!(refused(words, |arena| arena.in_use()), Refusal::Damaged);
        assert_eq!(refused(words, |arena| arena.sizes()), Refusal::Damaged);
        assert_eq!(refused(words, |arena| arena.check(&mut [])), Refusal::Damaged);
        assert_eq!(refused(words, |arena| arena.new_edition()), Refusal::Damaged);
        assert_eq!(refused(words, |arena| arena.entries(FIRST).map(|_| ())), Refusal::Damaged);
        assert_eq!(refused(words, |arena| put(arena, FIRST, B)), Refusal::Damaged);
        assert_eq!(Arena::over(&words[..]).held().count(), 0);
    }
}

#[test]
fn check_finds_deeper_damage_and_leaves_zeros() {
    let right = one_entry(4, 4, 3);
    let mut work = [7; 9];
    assert_eq!(Arena::over(&right[..]).check(&mut work), Ok(()));
    assert_eq!(work, [1, 0, 0, 0, 1, 0, 0, 0, 7]);
    let words = &mut right.clone()[..];
    words[10] = 2;
    assert_eq!(refused(words, |arena| arena.check(&mut work)), Refusal::Damaged);
    assert_eq!(work, [0, 0, 0, 0, 0, 0, 0, 0, 7]);
    assert_eq!(refused(words, |arena| arena.check(&mut [7; 7])), Refusal::WorkTooShort);
}

#[test]
fn editions_that_are_not_held_are_refused() {
    let words = &mut one_entry(4, 4, 4)[..];
    for edition in [Edition(2), Edition(4), Edition(u64::MAX)] {
        assert_eq!(refused(words, |arena| arena.size(edition)), Refusal::NoSuchEdition);
        assert_eq!(refused(words, |arena| arena.get(edition, A.hash, A.key)), Refusal::NoSuchEdition);
        assert_eq!(refused(words, |arena| arena.list(edition, 0, &mut [])), Refusal::NoSuchEdition);
        assert_eq!(refused(words, |arena| arena.entries(edition).map(|_| ())), Refusal::NoSuchEdition);
        assert_eq!(refused(words, |arena| arena.equal(FIRST, edition)), Refusal::NoSuchEdition);
        assert_eq!(refused(words, |arena| arena.equal(edition, FIRST)), Refusal::NoSuchEdition);
        assert_eq!(refused(words, |arena| arena.share(edition)), Refusal::NoSuchEdition);
        assert_eq!(refused(words, |arena| put(arena, edition, B)), Refusal::NoSuchEdition);
        assert_eq!(refused(words, |arena| arena.change(edition, A.hash, A.key, 11)), Refusal::NoSuchEdition);
        assert_eq!(refused(words, |arena| arena.remove(edition, A.hash, A.key)), Refusal::NoSuchEdition);
        assert_eq!(refused(words, |arena| arena.drop(edition)), Refusal::NoSuchEdition);
    }
}

#[test]
fn missing_keys_are_refused_before_slots() {
    let words = &mut one_entry(4, 4, 2)[..];
    for (hash, key) in [(A.hash, B.key), (B.hash, A.key)] {
        assert_eq!(refused(words, |arena| arena.get(FIRST, hash, key)), Refusal::Absent);
        assert_eq!(refused(words, |arena| arena.change(FIRST, hash, key, 11)), Refusal::Absent);
        assert_eq!(refused(words, |arena| arena.remove(FIRST, hash, key)), Refusal::Absent);
    }
}

#[test]
fn new_editions_want_a_slot() {
    let words = &mut one_entry(1, 1, 2)[..];
    assert_eq!(refused(words, |arena| arena.new_edition()), Refusal::NoSlot);
    assert_eq!(refused(words, |arena| arena.share(FIRST)), Refusal::NoSlot);
    assert_eq!(refused(words, |arena| put(arena, FIRST, B)), Refusal::NoSlot);
    assert_eq!(refused(words, |arena| arena.change(FIRST, A.hash, A.key, 11)), Refusal::NoSlot);
    assert_eq!(refused(words, |arena| arena.remove(FIRST, A.hash, A.key)), Refusal::NoSlot);
}

#[test]
fn updates_want_cells() {
    assert_eq!(refused(&mut one_entry(1, 1, 3), |arena| put(arena, FIRST, C)), Refusal::NoBranchCells);
    assert_eq!(refused(&mut one_entry(1, 2, 3), |arena| put(arena, FIRST, C)), Refusal::NoBranchCells);
    assert_eq!(refused(&mut one_entry(2, 1, 3), |arena| put(arena, FIRST, C)), Refusal::NoEntryCells);
}

#[test]
fn listings_want_a_place_and_room() {
    let words = &mut one_entry(4, 4, 2)[..];
    assert_eq!(refused(words, |arena| arena.list(FIRST, 0, &mut [0; 2])), Refusal::OutputTooShort);
    assert_eq!(refused(words, |arena| arena.list(FIRST, 0, &mut [])), Refusal::OutputTooShort);
    assert_eq!(refused(words, |arena| arena.list(FIRST, 2, &mut [])), Refusal::BeyondTheEnd);
    assert_eq!(refused(words, |arena| arena.list(FIRST, u64::MAX, &mut [0; 3])), Refusal::BeyondTheEnd);
    assert_eq!(Arena::over(&words[..]).list(FIRST, 1, &mut []), Ok(0));
}

#[test]
fn refusals_have_numbers_and_words() {
    for (at, refusal) in Refusal::ALL.into_iter().enumerate() {
        let number = at as u64 + 1;
        assert_eq!(refusal.number(), number);
        assert_eq!(Refusal::from_number(number), Some(refusal));
        assert_eq!(refusal.to_string(), format!("{} ({number})", refusal.words()));
    }
    assert_eq!(Refusal::from_number(0), None);
    assert_eq!(Refusal::from_number(13), None);
    assert_eq!(Refusal::from_number(u64::MAX), None);
    assert_eq!(Refusal::NoSuchEdition.to_string(), "no such edition (5)");
    let error: Box<dyn std::error::Error> = Refusal::Absent.into();
    assert_eq!(error.to_string(), "absent (6)");
}

#[test]
fn owned_arenas_refuse_sizes_as_format_does() {
    for refusal in [Refusal::BadDegree, Refusal::BadSizes] {
        let sizes = match refusal {
            Refusal::BadDegree => Sizes { degree: 5, ..SIZES },
            _ => Sizes { editions: 0, ..SIZES },
        };
        let error = Arena::owned(sizes).expect_err("the sizes are refused");
        assert_eq!(error.to_string(), refusal.to_string());
    }
}
