//! The crate and the library side by side: each call is made on both, and what differs is said in words.
use crate::expected::Expected;
use crate::library::Side;
use crate::tally::Tally;
use oracle::calls::{Answer, Call, number};
use oracle::text::{answered, call_line};

/// Words of the largest arena that is looked at as a whole after each call that may not write.
const FEW_WORDS: usize = 4096;

/// Both sides in a run.
pub struct Both<'a, S> {
    /// The crate's side.
    pub expected: Expected,
    side: S,
    tally: &'a mut Tally,
}

impl<'a, S: Side> Both<'a, S> {
    /// Both sides before the first call, which has to be a format.
    pub fn new(side: S, tally: &'a mut Tally) -> Both<'a, S> {
        Both { expected: Expected::default(), side, tally }
    }

    /// Makes a call on both, and answers what both answer, or says what differs.
    pub fn call(&mut self, call: &Call) -> Result<Answer, String> {
        let expected = self.expected.call(call);
        self.tally.call(call, &expected);
        let is_watched = !may_write(call, &expected) && self.side.words().len() <= FEW_WORDS;
        let before = if is_watched { self.side.words().to_vec() } else { Vec::new() };
        let seen = self.side.call(call).map_err(|what| format!("{}: {what}", call_line(call)))?;
        if seen != expected {
            return Err(difference(call, &expected, &seen));
        }
        if is_watched && before != self.side.words() {
            return Err(format!("{}: the call may not write, and alters the arena", call_line(call)));
        }
        if call.is_update() && expected.number == number::DONE {
            self.tally.see(self.expected.size(expected.values[0]), self.expected.in_use());
        }
        Ok(expected)
    }

    /// The library's check, which has to find the arena sound.
    pub fn check(&mut self) -> Result<(), String> {
        self.tally.check();
        if self.side.is_sound() { Ok(()) } else { Err("the library's check finds a fault".to_string()) }
    }

    /// Counts the cells that the crate's maps reach, each once, and sees that they are those that the calls took and have not
    /// freed. Answers how many there are.
    pub fn count_cells(&mut self) -> Result<u64, String> {
        self.tally.count_whole();
        let (counted, in_use) = (self.expected.in_use_counted(), self.expected.in_use());
        if counted != in_use {
            return Err(format!("the crate's maps have {counted:?}, and the calls left {in_use:?} in use"));
        }
        Ok(counted.branches + counted.entries)
    }

    /// How many words the arena has.
    pub fn words(&self) -> u64 {
        self.side.words().len() as u64
    }
}

/// Reads and refusals write nothing.
fn may_write(call: &Call, answer: &Answer) -> bool {
    let is_read =
        matches!(call, Call::Size { .. } | Call::InUse | Call::Get { .. } | Call::List { .. } | Call::Equal { .. });
    answer.number == number::DONE && !is_read
}

/// Both answers, and where two listings part.
fn difference(call: &Call, expected: &Answer, seen: &Answer) -> String {
    let line = |answer: &Answer| answered(call, &Answer { listed: Vec::new(), ..answer.clone() });
    let mut text = format!("\n  the crate:   {}  the library: {}", line(expected), line(seen));
    let mut listings = expected.listed.iter().zip(&seen.listed).enumerate();
    if let Some((at, (expected, seen))) = listings.find(|(_, (expected, seen))| expected != seen) {
        text += &format!("  entry {at} of the listing: {expected:x?} and {seen:x?}\n");
    }
    text.trim_end().to_string()
}
