//! A trial of one arena: check beside the plain decision, then the other calls, in slices between canaries.
use crate::calls::Call;
use crate::choice::Choice;
use crate::lent::Lent;
use crate::random::Random;
use crate::tally::Tally;
use crate::verdict::{Answer, Before};
use shelf::{Arena, Refusal};
use std::time::{Duration, Instant};

/// What a word of the output, or a work word, is before a call.
const UNTOUCHED: u64 = 0xbef0_7e00_bef0_7e00;

/// More work words than a check needs.
const TO_SPARE: usize = 3;

/// How often a call is made again that seems to be the longest.
const AGAIN: usize = 3;

/// The slices that trials lend, and what the trials have seen.
pub struct Trial {
    arena: Lent,
    /// the output of a listing, or the work words of a check
    second: Lent,
    random: Random,
    /// What was seen so far.
    pub tally: Tally,
}

impl Trial {
    /// Trials whose calls are chosen by these random numbers.
    pub fn new(random: Random) -> Trial {
        Trial { arena: Lent::default(), second: Lent::default(), random, tally: Tally::default() }
    }

    /// Tries an arena, and says what is wrong.
    pub fn of(&mut self, words: &[u64]) -> Result<(), String> {
        let before = Before::new(words);
        self.tally.arena(before.plain.is_some(), before.is_sound);
        self.check(&before)?;
        for call in Choice::new(before.plain.as_ref(), &mut self.random).calls() {
            self.call(call, &before)?;
        }
        Ok(())
    }

    /// A check with work words to spare, and now and then one with too few.
    fn check(&mut self, before: &Before) -> Result<(), String> {
        let Some(plain) = &before.plain else {
            let some = self.random.below(40) as usize;
            return self.check_with(before, Err(Refusal::Damaged), &vec![UNTOUCHED; some]);
        };
        let needed = plain.sizes.work_words();
        let mut left = vec![UNTOUCHED; needed + TO_SPARE];
        if before.is_sound {
            left[..needed].copy_from_slice(&plain.named().concat());
            self.check_with(before, Ok(()), &left)?;
        } else {
            left[..needed].fill(0);
            self.check_with(before, Err(Refusal::Damaged), &left)?;
        }
        if self.random.percent(10) {
            let too_few = self.random.below(needed as u64) as usize;
            self.check_with(before, Err(Refusal::WorkTooShort), &vec![UNTOUCHED; too_few])?;
        }
        Ok(())
    }

    /// A check that has to answer so and to leave these work words.
    fn check_with(&mut self, before: &Before, expected: Result<(), Refusal>, left: &[u64]) -> Result<(), String> {
        let answer = self.made("check", before, left.len(), |words, work| Arena::over(words).check(work));
        if answer != expected {
            return Err(format!("check answers {answer:?}, and the plain decision is {expected:?}"));
        }
        if self.second.words() != left {
            return Err(format!("check answers {answer:?} with other work words than document 01 has"));
        }
        if self.arena.words() != before.words {
            return Err("check writes to the arena".to_string());
        }
        self.are_canaries_standing().map_err(|what| format!("check: {what}"))
    }

    fn call(&mut self, call: Call, before: &Before) -> Result<(), String> {
        let room = self.random.below(40) as usize;
        let answer = self.made(call.name(), before, room, |words, out| call.make(words, out));
        self.is_right(call, answer, before).map_err(|what| format!("{call:?} answers {answer:?}: {what}"))
    }

    /// Makes a call on the arena as it was, with a second slice of so many words. One that seems to take longer than any before
    /// is made again, since what else the machine does in that time is no part of it.
    fn made<A>(
        &mut self,
        name: &'static str,
        before: &Before,
        room: usize,
        make: impl Fn(&mut [u64], &mut [u64]) -> A,
    ) -> A {
        let mut once = || -> (A, Duration) {
            self.arena.lay_out(before.words);
            self.second.lay_out(&vec![UNTOUCHED; room]);
            let began = Instant::now();
            let answer = make(self.arena.words_mut(), self.second.words_mut());
            (answer, began.elapsed())
        };
        let (mut answer, mut took) = once();
        for _ in 0..AGAIN {
            if took > self.tally.longest() {
                let again = once();
                answer = again.0;
                took = took.min(again.1);
            }
        }
        self.tally.call(name, took);
        answer
    }

    fn is_right(&self, call: Call, answer: Answer, before: &Before) -> Result<(), String> {
        self.are_canaries_standing()?;
        let listed = if let (Call::List(..), Ok(entries)) = (call, answer) { entries } else { 0 };
        let end = usize::try_from(listed).ok().and_then(|entries| entries.checked_mul(3));
        let left = end.and_then(|end| self.second.words().get(end..));
        if left.is_none_or(|left| left.iter().any(|word| *word != UNTOUCHED)) {
            return Err("it writes other words of the output than those of its entries".to_string());
        }
        before.allows(call, answer, self.arena.words())
    }

    fn are_canaries_standing(&self) -> Result<(), String> {
        let slices = [("arena", &self.arena), ("output or the work words", &self.second)];
        match slices.iter().find(|(_, lent)| !lent.do_canaries_stand()) {
            Some((name, _)) => Err(format!("words beside the {name} are altered")),
            None => Ok(()),
        }
    }
}
