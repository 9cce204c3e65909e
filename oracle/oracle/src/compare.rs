//! The comparison: random runs at a degree, the crate and document 01 side by side.
use crate::both::Both;
use crate::calls::{Answer, Call, number};
use crate::paper::Paper;
use crate::random::Random;
use crate::runs::{Hashes, Player, pool};
use crate::text::call_line;
use crate::trie::{Node, Root, Trie};
use std::fmt;

/// How many pairs a run draws from.
const POOLS: [u64; 11] = [1, 2, 3, 5, 8, 14, 30, 60, 120, 250, 500];

/// What the runs at a degree went through.
#[derive(Default)]
#[allow(missing_docs)]
pub struct Tally {
    pub inserts: u64,
    pub changes: u64,
    pub removes: u64,
    pub other_calls: u64,
    pub refusals: u64,
    pub cells: u64,
    pub largest: u64,
    pub longest_chain: usize,
    pub root_entries: u64,
    pub equal: u64,
    pub equal_in_another_order: u64,
}

impl Tally {
    /// The updates that were compared.
    pub fn updates(&self) -> u64 {
        self.inserts + self.changes + self.removes
    }

    /// Counts a call.
    pub fn count(&mut self, call: &Call, answer: &Answer) {
        if answer.number != number::DONE {
            self.refusals += 1;
            return;
        }
        match call {
            Call::Insert { .. } => self.inserts += 1,
            Call::Change { .. } => self.changes += 1,
            Call::Remove { .. } => self.removes += 1,
            _ => self.other_calls += 1,
        }
    }

    fn see_equal<T: Trie>(&mut self, first: &T, second: &T) {
        self.equal += 1;
        self.equal_in_another_order += u64::from(first.listing() != second.listing());
    }

    fn see_update(&mut self, answer: &Answer, size: u64, root: &Root) {
        self.cells += answer.values[1] + answer.values[2];
        self.largest = self.largest.max(size);
        if let Some(root) = root {
            self.root_entries += u64::from(matches!(**root, Node::Leaf(_)));
            self.longest_chain = self.longest_chain.max(longest_chain(root));
        }
    }
}

impl fmt::Display for Tally {
    fn fmt(&self, out: &mut fmt::Formatter<'_>) -> fmt::Result {
        write!(
            out,
            "{} updates ({} inserts, {} changes, {} removes) that took {} cells, {} other calls, {} refusals; \
             largest map {}, longest chain {}, {} roots that are an entry, {} equal pairs of which {} list otherwise",
            self.updates(),
            self.inserts,
            self.changes,
            self.removes,
            self.cells,
            self.other_calls,
            self.refusals,
            self.largest,
            self.longest_chain,
            self.root_entries,
            self.equal,
            self.equal_in_another_order
        )
    }
}

fn longest_chain(node: &Node) -> usize {
    match node {
        Node::Leaf(items) => items.len(),
        Node::Branch(_, kids) => kids.iter().map(|(_, kid)| longest_chain(kid)).max().unwrap_or(0),
    }
}

/// A difference: what differs, and the calls that lead to it, as text that the driver reads.
#[derive(Debug)]
pub struct Difference {
    /// What differs.
    pub what: String,
    /// The calls from the format on, the last of which shows it.
    pub calls: Vec<Call>,
}

impl fmt::Display for Difference {
    fn fmt(&self, out: &mut fmt::Formatter<'_>) -> fmt::Result {
        for call in &self.calls {
            writeln!(out, "{}", call_line(call))?;
        }
        write!(out, "# {}", self.what)
    }
}

/// One run: a fresh shelf, and calls that a player chooses. Slots are few, and room is sometimes short.
fn run<T: Trie>(degree: u64, number: u64, seed: u64, tally: &mut Tally) -> Result<(), Difference> {
    let mut random = Random::new(&[seed, degree, number]);
    let hashes = Hashes::ALL[number as usize % Hashes::ALL.len()];
    let count = POOLS[number as usize / Hashes::ALL.len() % POOLS.len()];
    let pool = pool(hashes, degree, count, &mut random);
    let room = if random.percent(10) { 1 + random.below(2 * count + 20) } else { 1 << 20 };
    let format = Call::Format { degree, branches: room, entries: room, editions: 2 + random.below(6) };
    let mut player = Player::new(pool, 3 * count + 30, 25, random);
    let mut both = Both::<T>::default();
    let mut calls = vec![format];
    both.call(&format).map_err(|what| Difference { what, calls: calls.clone() })?;
    while let Some(call) = player.next(&both.rpds) {
        calls.push(call);
        let answer = both.call(&call).map_err(|what| Difference { what, calls: calls.clone() })?;
        player.saw(&call, &answer);
        tally.count(&call, &answer);
        let edition = |edition: u64| both.rpds.edition(edition).expect("the call has just used it");
        match call {
            _ if answer.number != number::DONE => (),
            Call::Equal { first, second } if answer.values[0] == 1 => tally.see_equal(edition(first), edition(second)),
            _ if call.is_update() => {
                let made = edition(answer.values[0]);
                tally.see_update(&answer, made.size(), made.root());
            }
            _ => (),
        }
    }
    Ok(())
}

/// Makes the calls, and answers the first difference.
fn first_difference<T: Trie>(calls: &[Call]) -> Option<Difference> {
    let mut both = Both::<T>::default();
    calls.iter().enumerate().find_map(|(at, call)| {
        let what = both.call(call).err()?;
        Some(Difference { what, calls: calls[..=at].to_vec() })
    })
}

/// The calls without so many of them from a place on.
fn without(calls: &[Call], from: usize, block: usize) -> Vec<Call> {
    let (before, rest) = calls.split_at(from);
    [before, rest.get(block..).unwrap_or_default()].concat()
}

/// A difference from which no call can be left out.
pub(crate) fn shrink<T: Trie>(mut found: Difference) -> Difference {
    let mut block = found.calls.len();
    while block > 0 {
        let before = found.calls.len();
        let mut from = 0;
        while from < found.calls.len() {
            match first_difference::<T>(&without(&found.calls, from, block)) {
                Some(smaller) => found = smaller,
                None => from += block,
            }
        }
        if found.calls.len() == before {
            block /= 2;
        }
    }
    found
}

/// Runs the crate and another trie at a degree until so many updates have been compared.
pub fn compare_with<T: Trie>(degree: u64, updates: u64, seed: u64) -> Result<Tally, Difference> {
    let mut tally = Tally::default();
    for number in 0.. {
        if tally.updates() >= updates {
            break;
        }
        run::<T>(degree, number, seed, &mut tally).map_err(shrink::<T>)?;
    }
    Ok(tally)
}

/// Runs the crate and document 01's trie at a degree until so many updates have been compared.
pub fn compare(degree: u64, updates: u64, seed: u64) -> Result<Tally, Difference> {
    compare_with::<Paper>(degree, updates, seed)
}
