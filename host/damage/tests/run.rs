//! A small run sees no fault, and what a call may not do is seen.
use damage::calls::Call;
use damage::verdict::Before;
use shelf::{Edition, Refusal};

#[test]
fn a_small_run_sees_no_fault() {
    let mut told = Vec::new();
    let report = damage::run(2_000, 3, |fault| told.push(fault.to_string())).expect("sound arenas can be made");
    assert_eq!((report.tally.arenas(), report.faults), (2_000, 0), "{told:?}");
}

#[test]
fn as_many_arenas_are_tried_as_are_asked_for() {
    for arenas in [0, 1, 6] {
        let report = damage::run(arenas, 1, |_| ()).expect("sound arenas can be made");
        assert_eq!(report.tally.arenas(), arenas);
    }
}

/// A small sound arena, with a word beyond its total. Edition 3 is held, and edition 1 is not.
fn sound() -> Vec<u64> {
    let [_, mut words] = damage::arenas::small(16).expect("sound arenas can be made");
    words.push(77);
    words
}

#[test]
fn numbers_are_held_to_the_table() {
    let words = sound();
    let allows = |call: Call, answer| Before::new(&words).allows(call, answer, &words).is_ok();
    let (held, not_held) = (Edition(3), Edition(1));
    assert!(allows(Call::Get(held, 1, 2), Err(Refusal::Absent)));
    assert!(!allows(Call::Get(held, 1, 2), Err(Refusal::NoSlot)), "no number of a get");
    assert!(!allows(Call::Get(held, 1, 2), Err(Refusal::Damaged)), "the header is right");
    assert!(!allows(Call::Size(held), Err(Refusal::NoSuchEdition)), "it is held");
    assert!(!allows(Call::Size(not_held), Ok(0)), "it is not held");
    assert!(allows(Call::Equal(held, not_held), Err(Refusal::NoSuchEdition)));
    assert!(!allows(Call::Drop(held), Err(Refusal::NoEntryCells)), "a drop takes no cells");
}

#[test]
fn writing_is_held_to_what_is_lent() {
    let words = sound();
    let leaves = |call: Call, answer, at: usize| {
        let mut after = words.clone();
        after[at] ^= 1;
        Before::new(&words).allows(call, answer, &after)
    };
    let held = Edition(3);
    assert!(leaves(Call::Size(held), Ok(1), 20).is_err_and(|what| what.contains("alters the arena")));
    assert!(leaves(Call::Drop(Edition(9)), Err(Refusal::NoSuchEdition), 20).is_err(), "a refusal writes nothing");
    assert!(
        leaves(Call::Insert(held, 1, 2, 3), Err(Refusal::NoEntryCells), 20).is_err(),
        "nor does 9 where all is sound"
    );
    let end = words.len() - 1;
    assert!(leaves(Call::Drop(held), Ok(1), end).is_err_and(|what| what.contains("beyond the total")));
    assert!(leaves(Call::Drop(held), Ok(1), 3).is_err_and(|what| what.contains("words 0 to 7")));
    assert!(leaves(Call::Drop(held), Ok(1), 10).is_err_and(|what| what.contains("not any more")));
}

#[test]
fn a_wrong_header_is_4_and_nothing_is_written() {
    let mut words = sound();
    words[6] += 1;
    let allows = |answer, after: &[u64]| Before::new(&words).allows(Call::Drop(Edition(3)), answer, after).is_ok();
    assert!(allows(Err(Refusal::Damaged), &words));
    assert!(!allows(Ok(0), &words));
    assert!(!allows(Err(Refusal::NoSuchEdition), &words));
    assert!(!allows(Err(Refusal::Damaged), &sound()));
}
