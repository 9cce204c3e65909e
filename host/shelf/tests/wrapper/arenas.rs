//! Arenas over words of every kind, which they never leave.
use super::*;

/// The words that an arena of these sizes takes.
fn total(sizes: Sizes) -> usize {
    sizes.words().expect("the sizes are within the limits")
}

/// A few calls that write: three editions, of which the last holds two entries.
fn write<W: DerefMut<Target = [u64]>>(arena: &mut Arena<W>) -> Result<Edition, Refusal> {
    let empty = arena.new_edition()?;
    let first = put(arena, empty, A)?.edition;
    Ok(put(arena, first, B)?.edition)
}

#[test]
fn words_of_every_kind_hold_the_same_arena() -> Result<(), Refusal> {
    let mut owned = Arena::owned(SIZES).expect("the system has the words");
    let mut vector = Arena::formatted(vec![9; total(SIZES)], SIZES)?;
    let mut room = vec![5; total(SIZES)];
    let mut lent = Arena::formatted(&mut room[..], SIZES)?;
    let mut boxed = Arena::formatted(vec![3; total(SIZES)].into_boxed_slice(), SIZES)?;
    let edition = write(&mut owned)?;
    assert_eq!(write(&mut vector)?, edition);
    assert_eq!(write(&mut lent)?, edition);
    assert_eq!(write(&mut boxed)?, edition);
    assert_eq!(owned.words(), vector.words());
    assert_eq!(owned.words(), lent.words());
    assert_eq!(owned.words(), boxed.words());
    assert_eq!(listed(&owned, edition)?, [B, A]);
    Ok(())
}

#[test]
fn lent_words_stay_when_the_arena_is_gone() -> Result<(), Refusal> {
    let mut words = vec![0; total(SIZES)];
    let edition = write(&mut Arena::formatted(&mut words[..], SIZES)?)?;
    let looking = Arena::over(&words[..]);
    let also_looking = looking;
    assert_eq!(listed(&looking, edition)?, [B, A]);
    assert_eq!(also_looking.get(edition, A.hash, A.key), Ok(A.value));
    assert_eq!(also_looking.into_words(), &words[..]);
    let mut writing = Arena::over(&mut words[..]);
    let removed = writing.remove(edition, A.hash, A.key)?.edition;
    assert_eq!(listed(&Arena::over(words), removed)?, [B]);
    Ok(())
}

#[test]
fn a_copy_of_an_arena_goes_its_own_way() -> Result<(), Refusal> {
    let mut arena = Arena::formatted(vec![0; total(SIZES)], SIZES)?;
    let edition = write(&mut arena)?;
    let mut copy = arena.clone();
    copy.drop(edition)?;
    assert_eq!(listed(&arena, edition)?, [B, A]);
    assert_eq!(copy.size(edition), Err(Refusal::NoSuchEdition));
    Ok(())
}

#[test]
fn format_takes_exactly_the_words_that_the_sizes_say() -> Result<(), Refusal> {
    for degree in [2, 4, 8, 16, 32, 64] {
        let sizes = Sizes { degree, branches: 7, entries: 5, editions: 3 };
        let mut words = vec![0; total(sizes)];
        assert_eq!(Arena::over(&mut words[1..]).format(sizes), Err(Refusal::SliceTooShort));
        assert_eq!(Arena::formatted(words, sizes)?.sizes(), Ok(sizes));
    }
    assert_eq!(Sizes { degree: 2, branches: 1, entries: 1, editions: 1 }.words(), Ok(26));
    Ok(())
}

#[test]
fn words_beyond_the_total_are_never_touched() -> Result<(), Refusal> {
    let sizes = Sizes { degree: 16, branches: 20, entries: 6, editions: 8 };
    let mut words: Vec<u64> = (0..total(sizes) as u64 + 100).collect();
    let beyond = words[total(sizes)..].to_vec();
    let mut arena = Arena::formatted(&mut words[..], sizes)?;
    let mut edition = arena.new_edition()?;
    for entry in [A, B, D, E] {
        let older = edition;
        edition = put(&mut arena, edition, entry)?.edition;
        arena.drop(older)?;
    }
    edition = arena.remove(edition, A.hash, A.key)?.edition;
    assert_eq!(listed(&arena, edition)?, [B, E, D]);
    assert!(is_sound(&arena));
    assert_eq!(arena.sizes(), Ok(sizes));
    assert_eq!(words[total(sizes)..], beyond);
    Ok(())
}

#[test]
fn a_format_ends_every_edition() -> Result<(), Refusal> {
    let (mut arena, k) = k1_to_k5(SIZES);
    arena.format(SIZES)?;
    assert_eq!(arena.size(k[5]), Err(Refusal::NoSuchEdition));
    assert_eq!(arena.held().count(), 0);
    assert_eq!(arena.new_edition(), Ok(Edition(0)));
    Ok(())
}

#[test]
fn held_editions_are_named_in_order() -> Result<(), Refusal> {
    let (mut arena, k) = k1_to_k5(SIZES);
    assert_eq!(arena.held().collect::<Vec<_>>(), k);
    arena.drop(k[2])?;
    arena.drop(k[4])?;
    assert_eq!(arena.held().collect::<Vec<_>>(), [k[0], k[1], k[3], k[5]]);
    assert_eq!(arena.share(k[5]), Ok(k[2]));
    assert_eq!(arena.held().last(), Some(k[5]));
    assert_eq!(k[3].to_string(), "edition 3");
    Ok(())
}

#[test]
fn readers_on_other_threads_see_the_same() {
    let (arena, k) = k1_to_k5(SIZES);
    std::thread::scope(|scope| {
        for (size, edition) in k.into_iter().enumerate() {
            let arena = &arena;
            scope.spawn(move || assert_eq!(arena.size(edition), Ok(size as u64)));
        }
    });
}
