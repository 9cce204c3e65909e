//! Document 01's shelf table: the cells taken, the listing of K5 and the cells in use, on the crate and on document 01's
//! trie alike.
use oracle::both::Both;
use oracle::calls::{Answer, Call, Entry};

const A: Entry = Entry { hash: 0x26, key: 1, value: 10 };
const B: Entry = Entry { hash: 0x16, key: 2, value: 20 };
const C: Entry = Entry { hash: 0x42, key: 3, value: 30 };
const D: Entry = Entry { hash: 0x7000_0000_0000_0008, key: 4, value: 40 };
const E: Entry = Entry { hash: 0x7000_0000_0000_0008, key: 5, value: 50 };

struct Table(Both);

impl Table {
    fn new(degree: u64) -> Table {
        let mut table = Table(Both::default());
        table.done(Call::Format { degree, branches: 1 << 20, entries: 1 << 22, editions: 64 });
        table.done(Call::NewEdition);
        table
    }

    fn done(&mut self, call: Call) -> Answer {
        let answer = self.0.call(&call).unwrap();
        assert_eq!(answer.number, 0, "{call:?}");
        answer
    }

    /// Makes an update that has to take so many cells.
    fn takes(&mut self, call: Call, branches: u64, entries: u64) -> u64 {
        let [edition, taken_branches, taken_entries] = self.done(call).values;
        assert_eq!((taken_branches, taken_entries), (branches, entries), "{call:?}");
        edition
    }

    fn insert(&mut self, edition: u64, entry: Entry, branches: u64, entries: u64) -> u64 {
        self.takes(Call::Insert { edition, entry }, branches, entries)
    }

    fn remove(&mut self, edition: u64, Entry { hash, key, .. }: Entry, branches: u64, entries: u64) -> u64 {
        self.takes(Call::Remove { edition, hash, key }, branches, entries)
    }

    fn list(&mut self, edition: u64) -> Vec<Entry> {
        self.done(Call::List { edition, place: 0, room: 100 }).listed
    }

    fn in_use(&mut self) -> (u64, u64) {
        let [branches, entries, _] = self.done(Call::InUse).values;
        (branches, entries)
    }
}

#[test]
fn k1_to_k10() {
    let mut table = Table::new(16);
    let k1 = table.insert(0, A, 1, 1);
    let k2 = table.insert(k1, B, 2, 1);
    let k3 = table.insert(k2, C, 1, 1);
    let k4 = table.insert(k3, D, 1, 1);
    let k5 = table.insert(k4, E, 16, 1);
    assert_eq!(table.in_use(), (21, 5));
    assert_eq!(table.list(k5), [C, B, A, E, D]);
    let changed = Entry { value: 41, ..D };
    let k6 = table.insert(k5, changed, 16, 2);
    assert_eq!(table.list(k6), [C, B, A, changed, E]);
    table.remove(k5, D, 1, 1);
    table.remove(k5, E, 1, 0);
    let k9 = table.remove(k2, A, 0, 0);
    assert_eq!(table.list(k9), [B]);
    table.insert(k9, A, 2, 1);
    // "Also run"
    let sixth = Entry { key: 6, value: 60, ..D };
    let with_6 = table.insert(k5, sixth, 16, 1);
    table.remove(with_6, sixth, 16, 0);
    table.remove(k6, D, 1, 0);
    table.insert(k5, Entry { hash: C.hash, ..D }, 16, 1);
    let none = table.remove(k1, A, 0, 0);
    assert!(table.0.rpds.edition(none).is_ok_and(|trie| trie.map().is_empty()));
    let others: Vec<u64> = table.0.rpds.held().filter(|edition| *edition != k5).collect();
    for edition in others {
        table.done(Call::Drop { edition });
    }
    assert_eq!(table.in_use(), (17, 5));
}

#[test]
fn k11_and_k12() {
    for (degree, branches) in [(64, 11), (8, 22)] {
        let mut table = Table::new(degree);
        let one = table.insert(0, Entry { hash: 0, key: 1, value: 1 }, 1, 1);
        table.insert(one, Entry { hash: 1 << 63, key: 1, value: 1 }, branches, 1);
    }
}
