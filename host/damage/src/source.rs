//! The arenas that are tried: every word of small ones changed in turn, and random damage to larger ones.
use crate::arenas::{self, DEGREES};
use crate::harm;
use crate::random::Random;
use crate::shape::reshape;
use shelf::Refusal;

/// How many damaged arenas are made of one larger arena.
const USES: u64 = 40;

/// Words beyond the total of a small arena.
const BEYOND: [u64; 2] = [1, 0xbe70_0d00];

/// An arena to be tried, and how it came about.
pub struct Damaged {
    /// The words that are lent.
    pub words: Vec<u64>,
    /// What was done to them, in words.
    pub how: String,
}

/// Small sound arenas, and every change of one of their words.
pub struct Turns {
    arenas: Vec<Vec<u64>>,
    /// an arena, and a word of it
    places: Vec<(usize, usize)>,
}

impl Turns {
    /// The turns at every degree.
    pub fn new() -> Result<Turns, Refusal> {
        let mut arenas = DEGREES.iter().map(|degree| arenas::small(*degree)).collect::<Result<Vec<_>, _>>()?.concat();
        arenas.iter_mut().for_each(|words| words.extend(BEYOND));
        let places = arenas.iter().enumerate().flat_map(|(arena, words)| (0..words.len()).map(move |at| (arena, at)));
        Ok(Turns { places: places.collect(), arenas })
    }

    /// How many there are.
    pub fn count(&self) -> u64 {
        self.places.len() as u64 * harm::VALUES
    }

    /// One of them, by its number.
    pub fn damaged(&self, number: u64) -> Damaged {
        let (arena, at) = self.places[(number / harm::VALUES) as usize];
        let mut words = self.arenas[arena].clone();
        let value = harm::other(&words, at, number % harm::VALUES);
        let how = format!("degree {}, a small arena with word {at} changed from {} to {value}", words[1], words[at]);
        words[at] = value;
        Damaged { words, how }
    }
}

/// Larger arenas, damaged at random.
pub struct Larger {
    random: Random,
    base: Vec<u64>,
    uses: u64,
    made: u64,
}

impl Larger {
    /// Those that belong to these random numbers.
    pub fn new(random: Random) -> Larger {
        Larger { random, base: Vec::new(), uses: 0, made: 0 }
    }

    /// The next one: the degrees take turns.
    pub fn damaged(&mut self) -> Result<Damaged, Refusal> {
        if self.uses == 0 {
            let degree = DEGREES[self.made as usize % DEGREES.len()];
            self.base = arenas::larger(degree, &mut self.random)?;
            let beyond = self.random.below(6);
            self.base.extend((0..beyond).map(|_| self.random.word()));
            (self.uses, self.made) = (USES, self.made + 1);
        }
        self.uses -= 1;
        let mut words = self.base.clone();
        let what = match self.random.below(100) {
            0..3 => "as it was made",
            3..50 => {
                harm::some_words(&mut words, &mut self.random);
                "with some words damaged"
            }
            50..90 => {
                reshape(&mut words, &mut self.random);
                "with tries of another shape"
            }
            _ => {
                harm::all_words(&mut words, &mut self.random);
                "with random words behind its header"
            }
        };
        Ok(Damaged { words, how: format!("degree {}, a larger arena {what}", self.base[1]) })
    }
}
