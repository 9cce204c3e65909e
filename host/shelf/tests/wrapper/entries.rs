//! Listings by pages: of every length about the ends of pages, and on damaged words.
use super::*;

/// An arena with one edition of so many entries, under hashes that fall on each other here and there.
fn study(size: u64) -> (Arena<Words>, Edition) {
    let sizes = Sizes { degree: 16, branches: 4 * size + 100, entries: size + 20, editions: 2 };
    let mut arena = Arena::owned(sizes).expect("the system has the words");
    let mut edition = arena.new_edition().expect("every slot is free");
    for key in 0..size {
        let hash = (key % 1_000).wrapping_mul(0x9e37_79b9_7f4a_7c15);
        let update = arena.insert(edition, hash, key, 8 * key).expect("there is room");
        arena.drop(edition).expect("it is held");
        edition = update.edition;
    }
    (arena, edition)
}

/// The same listing by one call with room for all of it.
fn listed_at_once(arena: &Arena<Words>, edition: Edition, size: u64) -> Vec<Entry> {
    let mut out = vec![0; 3 * size as usize];
    assert_eq!(arena.list(edition, 0, &mut out), Ok(size));
    out.chunks(3).map(|entry| Entry { hash: entry[0], key: entry[1], value: entry[2] }).collect()
}

#[test]
fn pages_make_up_the_listing() -> Result<(), Refusal> {
    for size in [0, 1, 255, 256, 257, 511, 512, 513, 1_000, 5_000] {
        let (arena, edition) = study(size);
        let entries = listed(&arena, edition)?;
        assert_eq!(entries, listed_at_once(&arena, edition, size), "{size}");
        let mut keys: Vec<u64> = entries.iter().map(|entry| entry.key).collect();
        keys.sort_unstable();
        assert!(keys.into_iter().eq(0..size), "{size}");
    }
    Ok(())
}

#[test]
fn lent_pages_of_any_length_make_up_the_listing() -> Result<(), Refusal> {
    let (arena, edition) = study(100);
    let whole = listed_at_once(&arena, edition, 100);
    for words in [3, 4, 5, 6, 30, 299, 300, 301, 1_000] {
        let mut page = vec![0; words];
        let entries: Vec<Entry> = arena.entries_by(edition, &mut page)?.collect::<Result<_, _>>()?;
        assert_eq!(entries, whole, "a page of {words} words");
    }
    for words in 0..3 {
        let mut page = vec![0; words];
        let mut entries = arena.entries_by(edition, &mut page)?;
        assert_eq!(entries.next(), Some(Err(Refusal::OutputTooShort)));
        assert_eq!(entries.next(), None);
    }
    Ok(())
}

#[test]
fn an_ended_listing_stays_ended() -> Result<(), Refusal> {
    let (arena, edition) = study(1);
    let mut entries = arena.entries(edition)?;
    assert_eq!(entries.next(), Some(Ok(Entry { hash: 0, key: 0, value: 0 })));
    assert_eq!(entries.next(), None);
    assert_eq!(entries.next(), None);
    Ok(())
}

#[test]
fn a_size_that_is_too_large_ends_in_a_refusal() {
    for claimed in [501, 100_000, u64::MAX] {
        let (arena, edition) = study(500);
        let slot = 12 + 3 * edition.number() as usize;
        let mut words = arena.into_words();
        words[slot + 2] = claimed;
        let damaged = Arena::over(words);
        let mut entries = damaged.entries(edition).expect("the edition is held");
        assert_eq!(entries.by_ref().take(500).filter(Result::is_ok).count(), 500);
        assert_eq!(entries.next(), Some(Err(Refusal::Damaged)));
        assert_eq!(entries.next(), None);
    }
}

#[test]
fn listings_of_wrong_words_end() {
    let (arena, edition) = study(40);
    let right = arena.words();
    for at in 12..right.len() {
        for wrong in [0, 1, 3, right[at] ^ 2, right[at].wrapping_sub(1), u64::MAX] {
            let mut words = right.to_vec();
            words[at] = wrong;
            let damaged = Arena::over(words);
            let Ok(entries) = damaged.entries(edition) else { continue };
            let (found, refused): (Vec<_>, Vec<_>) = entries.partition(Result::is_ok);
            assert!(refused.len() <= 1, "word {at}: {wrong}");
            assert!(found.len() as u64 <= damaged.size(edition).expect("it is held"), "word {at}: {wrong}");
        }
    }
}
