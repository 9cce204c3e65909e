//! The wrapper's promises: the shelf table through it, its refusals, its words and its listings.
mod arenas;
mod entries;
mod picture;
mod refusals;
mod shelf_table;
mod tags;
mod words;

use shelf::{Arena, Edition, Entry, Refusal, Sizes, Update, Words};
use std::ops::{Deref, DerefMut};

/// The entries of document 01's shelf table.
const A: Entry = Entry { hash: 0x26, key: 1, value: 10 };
const B: Entry = Entry { hash: 0x16, key: 2, value: 20 };
const C: Entry = Entry { hash: 0x42, key: 3, value: 30 };
const D: Entry = Entry { hash: 0x7000_0000_0000_0008, key: 4, value: 40 };
const E: Entry = Entry { hash: 0x7000_0000_0000_0008, key: 5, value: 50 };

/// Room for every case of the table in one arena.
const SIZES: Sizes = Sizes { degree: 16, branches: 160, entries: 40, editions: 24 };

fn put<W: DerefMut<Target = [u64]>>(arena: &mut Arena<W>, into: Edition, entry: Entry) -> Result<Update, Refusal> {
    arena.insert(into, entry.hash, entry.key, entry.value)
}

fn listed<W: Deref<Target = [u64]>>(arena: &Arena<W>, edition: Edition) -> Result<Vec<Entry>, Refusal> {
    arena.entries(edition)?.collect()
}

/// An arena with an empty edition and K1 to K5, each under its number.
fn k1_to_k5(sizes: Sizes) -> (Arena<Words>, [Edition; 6]) {
    let mut arena = Arena::owned(sizes).expect("the system has the words");
    let mut k = [arena.new_edition().expect("every slot is free"); 6];
    for (case, entry) in [A, B, C, D, E].into_iter().enumerate() {
        k[case + 1] = put(&mut arena, k[case], entry).expect("there is room").edition;
    }
    (arena, k)
}

/// Whether the arena is sound, by its own check.
fn is_sound<W: Deref<Target = [u64]>>(arena: &Arena<W>) -> bool {
    let sizes = arena.sizes().expect("the header is right");
    arena.check(&mut vec![0; sizes.work_words()]).is_ok()
}
