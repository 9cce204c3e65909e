//! What document 01 says of a call on any words, and whether what was seen of one agrees.
use crate::calls::Call;
use crate::plain::Plain;
use crate::soundness::is_sound;
use shelf::{Refusal, Sizes};

/// The first value of an answer, or the refusal.
pub type Answer = Result<u64, Refusal>;

/// An arena as it was lent.
pub struct Before<'a> {
    /// Its words.
    pub words: &'a [u64],
    /// The same, where the header is right.
    pub plain: Option<Plain<'a>>,
    /// Whether it is sound by the plain decision.
    pub is_sound: bool,
}

impl<'a> Before<'a> {
    /// An arena of these words.
    pub fn new(words: &'a [u64]) -> Before<'a> {
        Before { words, plain: Plain::read(words), is_sound: is_sound(words) }
    }

    /// Whether a call may answer so, and leave these words. What is wrong is said by a sentence.
    pub fn allows(&self, call: Call, answer: Answer, after: &[u64]) -> Result<(), String> {
        if let Call::Format(sizes) = call {
            return self.allows_format(sizes, answer, after);
        }
        self.allows_number(call, answer)?;
        if !self.may_write(call, answer) && after != self.words {
            return Err("it alters the arena".to_string());
        }
        let total = self.plain.as_ref().map_or(0, |plain| plain.total);
        if after[total..] != self.words[total..] {
            return Err("it alters words beyond the total".to_string());
        }
        if self.plain.is_some() && after[..8] != self.words[..8] {
            return Err("it alters words 0 to 7".to_string());
        }
        if self.is_sound && after != self.words && !is_sound(after) {
            return Err("the arena was sound and is not any more".to_string());
        }
        Ok(())
    }

    /// 4 exactly where the header is wrong, 5 exactly where an edition is not held, and else a number that the table has for
    /// the call.
    fn allows_number(&self, call: Call, answer: Answer) -> Result<(), String> {
        let editions = call.editions();
        let are_held = |plain: &Plain| editions.iter().all(|edition| plain.held(edition.number()).is_some());
        let expected = match &self.plain {
            None => Some(Refusal::Damaged),
            Some(plain) if !are_held(plain) => Some(Refusal::NoSuchEdition),
            Some(_) => None,
        };
        match (expected, answer) {
            (Some(why), _) if answer != Err(why) => Err(format!("document 01 has {why}")),
            (None, Err(why)) if !call.may_answer(why) => Err("the table has no such number for it".to_string()),
            _ => Ok(()),
        }
    }

    /// Reads and refusals write nothing. On an arena that is not sound 8 and 9 may come when cells were taken already.
    fn may_write(&self, call: Call, answer: Answer) -> bool {
        let is_late = matches!(answer, Err(Refusal::NoBranchCells | Refusal::NoEntryCells)) && !self.is_sound;
        !call.only_reads() && (answer.is_ok() || is_late)
    }

    /// "Format tests in the order 1, 2, 3", and leaves a sound arena; words beyond its total "are never touched".
    fn allows_format(&self, sizes: Sizes, answer: Answer, after: &[u64]) -> Result<(), String> {
        let expected = match sizes.words() {
            Ok(total) if total > self.words.len() => Err(Refusal::SliceTooShort),
            total => total,
        };
        let is_right = match expected {
            Ok(total) => answer == Ok(0) && is_sound(after) && after[total..] == self.words[total..],
            Err(why) => answer == Err(why) && after == self.words,
        };
        if is_right { Ok(()) } else { Err(format!("document 01 has {expected:?}, with the words for it")) }
    }
}
