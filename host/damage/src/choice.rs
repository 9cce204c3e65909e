//! Which calls are made on an arena: every kind, with numbers that fit the arena and with wild ones.
use crate::calls::Call;
use crate::plain::{Cell, Kind, Plain};
use crate::random::Random;
use shelf::{Edition, Sizes};

/// Chooses calls for an arena, by what its words show where its header is right.
pub struct Choice<'a> {
    plain: Option<&'a Plain<'a>>,
    random: &'a mut Random,
}

impl<'a> Choice<'a> {
    /// Choices for an arena, none if its header is wrong, by these random numbers.
    pub fn new(plain: Option<&'a Plain<'a>>, random: &'a mut Random) -> Choice<'a> {
        Choice { plain, random }
    }

    /// Every kind of call, some more than once.
    pub fn calls(&mut self) -> Vec<Call> {
        let (first, second) = (self.edition(), self.edition());
        let place = self.place(first);
        let mut calls = vec![
            Call::InUse,
            Call::NewEdition,
            Call::Size(first),
            Call::Share(second),
            Call::Equal(first, second),
            Call::Drop(first),
            Call::Drop(second),
            Call::List(second, 0),
            Call::List(first, place),
        ];
        for _ in 0..2 {
            let (edition, (hash, key)) = (self.edition(), self.pair());
            calls.extend([Call::Get(edition, hash, key), Call::Remove(edition, hash, key)]);
            calls.extend([Call::Insert(edition, hash, key, 7), Call::Change(edition, hash, key, 8)]);
        }
        if self.random.percent(10) {
            calls.push(Call::Format(self.sizes()));
        }
        calls
    }

    /// A held edition, mostly; now and then any slot, or none that there is.
    fn edition(&mut self) -> Edition {
        let slots = self.plain.map_or(4, |plain| plain.sizes.editions);
        let is_held = |slot: &u64| self.plain.is_some_and(|plain| plain.held(*slot).is_some());
        let held: Vec<u64> = (0..slots).filter(is_held).collect();
        Edition(match self.random.below(12) {
            0 => self.random.below(slots + 2),
            1 => self.random.word(),
            _ if held.is_empty() => 0,
            _ => *self.random.of(&held),
        })
    }

    /// Hash and key of an entry cell, mostly.
    fn pair(&mut self) -> (u64, u64) {
        let Some(plain) = self.plain.filter(|_| self.random.percent(90)) else {
            return (self.random.word(), self.random.below(8));
        };
        let number = self.random.below(plain.sizes.entries) as usize;
        let words = plain.words_of(Cell { kind: Kind::Entry, number });
        let key = if self.random.percent(80) { words[4] } else { words[4] ^ 1 };
        (words[3], key)
    }

    /// A place in the listing of an edition, at its end, behind it, or anywhere.
    fn place(&mut self, edition: Edition) -> u64 {
        let size = self.plain.and_then(|plain| plain.held(edition.number())).map_or(0, |slot| slot[2]);
        match self.random.below(4) {
            0 => size,
            1 => size.wrapping_add(1),
            2 => self.random.word(),
            _ => self.random.below(size.clamp(1, 1000)),
        }
    }

    /// The sizes of the arena itself, or others, right and wrong.
    fn sizes(&mut self) -> Sizes {
        let own = self.plain.filter(|_| self.random.percent(40)).map(|plain| plain.sizes);
        let degree = *self.random.of(&[0, 1, 2, 3, 4, 8, 16, 32, 64, 65, 128]);
        let mut few = || self.random.below(20);
        own.unwrap_or(Sizes { degree, branches: few(), entries: few(), editions: few() })
    }
}
