//! The comparison on short inputs: every sequence of a few updates over a few keys.
use crate::both::Both;
use crate::calls::{Call, number};
use crate::compare::{Difference, Tally, shrink};
use crate::paper::{self, Paper};
use crate::recorder::{change, insert, remove};
use crate::runs::Pair;

/// Two keys under one hash, one beside them below the last branch, and one that parts from them at the root.
fn pairs(degree: u64) -> [Pair; 4] {
    let (bits, depths) = paper::row(degree).expect("a degree of the table");
    let hash = 0x0123_4567_89ab_cdef;
    [(hash, 1), (hash, 2), (hash ^ (1 << ((depths - 1) * bits)), 1), (hash ^ 1, 1)]
}

/// What may be done to an edition.
fn updates(degree: u64, edition: u64) -> impl Iterator<Item = Call> {
    let each = move |pair| [insert(edition, pair, 1), change(edition, pair, 2), remove(edition, pair)];
    pairs(degree).into_iter().flat_map(each)
}

/// The calls that lead to where the comparison stands, and both shelves after them.
struct Walk {
    degree: u64,
    calls: Vec<Call>,
    both: Both,
    tally: Tally,
}

impl Walk {
    /// An arena with an empty edition.
    fn begin(&mut self) -> Result<u64, Difference> {
        self.call(Call::Format { degree: self.degree, branches: 1 << 20, entries: 1 << 20, editions: 16 })?;
        Ok(self.call(Call::NewEdition)?.expect("there is a slot free"))
    }

    /// Makes a call; the answer, if it is not refused.
    fn call(&mut self, call: Call) -> Result<Option<u64>, Difference> {
        self.calls.push(call);
        let answer = self.both.call(&call);
        let answer = answer.map_err(|what| Difference { what, calls: self.calls.clone() })?;
        self.tally.count(&call, &answer);
        Ok((answer.number == number::DONE).then_some(answer.values[0]))
    }

    /// Every sequence of up to so many updates from an edition. One that is refused changes nothing, and nothing needs to
    /// follow it. What was made is dropped again, so that each sequence finds the same slots.
    fn go_on(&mut self, edition: u64, updates_left: u32) -> Result<(), Difference> {
        if updates_left == 0 {
            return Ok(());
        }
        let here = self.calls.len();
        for update in updates(self.degree, edition) {
            if let Some(made) = self.call(update)? {
                self.go_on(made, updates_left - 1)?;
                self.calls.truncate(here + 1);
                self.call(Call::Drop { edition: made })?;
            }
            self.calls.truncate(here);
        }
        Ok(())
    }
}

/// Every sequence of up to so many updates from the empty map, over four keys, at a degree.
pub fn exhaust(degree: u64, updates: u32) -> Result<Tally, Difference> {
    let mut walk = Walk { degree, calls: Vec::new(), both: Both::default(), tally: Tally::default() };
    walk.begin().and_then(|empty| walk.go_on(empty, updates)).map_err(shrink::<Paper>)?;
    Ok(walk.tally)
}
