//! The stored answers of the two modules below the trie: the crate's `index_from_hash` and its sparse array.
use crate::DEGREES;
use crate::paper;
use crate::random::Random;
use rpds::map::hash_trie_map::probe::{Sparse, index_from_hash};
use std::fmt::Write;

/// Calls and answers so far.
#[derive(Default)]
struct Leaves {
    text: String,
    calls: u64,
    array: Option<Sparse>,
}

/// Found or not, and what.
fn found(value: Option<u64>) -> [u64; 2] {
    [value.is_some().into(), value.unwrap_or(0)]
}

impl Leaves {
    fn line(&mut self, letter: char, arguments: &[u64], answer: [u64; 2]) {
        self.text.push(letter);
        for argument in arguments {
            let _ = write!(self.text, " {argument:x}");
        }
        let _ = writeln!(self.text, " = {:x} {:x}", answer[0], answer[1]);
        self.calls += 1;
    }

    fn index(&mut self, hash: u64, depth: u64, degree: u64) {
        let index = index_from_hash(hash, depth as usize, degree as u8);
        self.line('x', &[hash, depth, degree], found(index.map(|index| index as u64)));
    }

    fn array(&mut self) -> &mut Sparse {
        self.array.get_or_insert_with(Sparse::new)
    }

    fn new_array(&mut self) {
        self.array = None;
        self.line('a', &[], [0, 0]);
    }

    /// A call that writes, with the array that it leaves: its bitmap, its size and its words as they are packed.
    fn written(&mut self, letter: char, arguments: &[u64]) {
        let array = self.array();
        let bitmap = (0..64).filter(|index| array.get(*index).is_some()).fold(0, |bits, index| bits | 1 << index);
        let (size, words) = (array.size() as u64, array.words());
        self.line(letter, arguments, [bitmap, size]);
        for word in words {
            let _ = writeln!(self.text, "+ {word:x}");
        }
    }

    fn set(&mut self, index: u64, value: u64) {
        self.array().set(index as usize, value);
        self.written('p', &[index, value]);
    }

    fn remove(&mut self, index: u64) {
        self.array().remove(index as usize);
        self.written('k', &[index]);
    }

    fn get(&mut self, index: u64) {
        let word = self.array().get(index as usize);
        self.line('o', &[index], found(word));
    }

    fn first(&mut self) {
        let word = self.array().first();
        self.line('h', &[], found(word));
    }

    /// The crate's `pop` leaves its array in pieces, so a new one follows.
    fn pop(&mut self) {
        let word = self.array().pop();
        self.line('q', &[], found(word));
        self.new_array();
    }

    /// A random array of so many calls.
    fn play(&mut self, calls: u64, random: &mut Random) {
        self.new_array();
        for _ in 0..calls {
            let index = random.below(64);
            match random.below(6) {
                0 => self.remove(index),
                1 => self.get(index),
                2 => self.first(),
                _ => self.set(index, random.below(256)),
            }
        }
        self.pop();
    }
}

/// The file.
pub fn file(seed: u64) -> String {
    let mut to = Leaves::default();
    let mut random = Random::new(&[seed]);
    to.text = format!(
        "# The answers of rpds 1.2.1's index_from_hash and sparse array. Written by the oracle, which says how to read it \
         (oracle/README.md); seed {seed}.\n"
    );
    for degree in DEGREES {
        let (_, depths) = paper::row(degree).expect("a degree of the table");
        for hash in [0, u64::MAX, random.word()] {
            (0..=u64::from(depths) + 1).for_each(|depth| to.index(hash, depth, degree));
        }
    }
    to.new_array();
    to.first();
    to.get(0);
    to.remove(0);
    for (index, value) in [(63, 1), (0, 2), (31, 3), (31, 4), (1, 5), (62, u64::MAX), (0, 0)] {
        to.set(index, value);
        to.first();
    }
    for index in 0..64 {
        to.get(index);
    }
    for index in [31, 31, 0, 63, 62] {
        to.remove(index);
    }
    to.pop();
    (0..64).for_each(|index| to.set(63 - index, index));
    for index in [0, 63, 30] {
        to.remove(index);
    }
    to.pop();
    for calls in [5, 20, 60] {
        to.play(calls, &mut random);
    }
    let _ = writeln!(to.text, "t {:x}", to.calls);
    to.text
}
