//! A measurement: passes over the entries of a kind, with the clock running, and what goes before and after them
//! without it.
use crate::keys::{BATCH, Keys};
use crate::kinds::Kind;
use crate::loops::{self, Loop, Loops};
use crate::sides::{Side, Stand};
use shelf::{Entry, Refusal};
use std::hint::black_box;
use std::ops::AddAssign;
use std::time::{Duration, Instant};

/// What was measured.
#[derive(Clone, Copy, Debug, Default)]
pub struct Measured {
    /// How long it took.
    pub time: Duration,
    /// How many operations that was; of a listing each entry counts, of a check each cell.
    pub operations: usize,
    /// The sum over what was read.
    pub sum: u64,
}

impl Measured {
    /// Nanoseconds per operation.
    pub fn nanoseconds(&self) -> f64 {
        self.time.as_secs_f64() * 1e9 / self.operations as f64
    }
}

impl AddAssign for Measured {
    fn add_assign(&mut self, other: Measured) {
        self.time += other.time;
        self.operations += other.operations;
        self.sum = self.sum.wrapping_add(other.sum);
    }
}

/// The measurement of a kind on a side.
pub struct Passes<'k, S: Side> {
    kind: Kind,
    keys: &'k Keys,
    measured: Loop<S>,
}

impl<'k, S: Loops> Passes<'k, S> {
    /// The measurement, if the side has such a kind.
    pub fn new(kind: Kind, keys: &'k Keys) -> Option<Self> {
        S::measured(kind).map(|measured| Passes { kind, keys, measured })
    }

    /// Goes `times` times over the entries. Where each pass needs upkeep the clock is stopped between them; else it
    /// runs through, so that the shortest passes are not drowned in readings of the clock.
    pub fn measure(&self, stand: &mut Stand<S>, times: usize) -> Result<Measured, Refusal> {
        let needs_upkeep = matches!(self.kind, Kind::InsertKept | Kind::InsertDropped | Kind::Remove);
        let (stretches, times) = if needs_upkeep { (times, 1) } else { (1, times) };
        let mut all = Measured::default();
        for stretch in 0..stretches {
            all += self.stretch(stand, self.kind.entries(self.keys, stretch), times)?;
        }
        Ok(all)
    }

    /// Goes over some entries, `times` times with the clock running.
    pub fn stretch(&self, stand: &mut Stand<S>, entries: &[Entry], times: usize) -> Result<Measured, Refusal> {
        self.make_ready(stand, entries)?;
        let mut sum: u64 = 0;
        let clock = Instant::now();
        for _ in 0..times {
            sum = sum.wrapping_add(black_box((self.measured)(stand, black_box(entries))?));
        }
        let time = clock.elapsed();
        self.clear_up(stand, entries)?;
        let operations = match self.kind {
            Kind::List => self.keys.size(),
            Kind::Check => stand.side.cells(),
            _ => entries.len(),
        };
        Ok(Measured { time, operations: times * operations, sum })
    }

    /// A removal is of entries that are there. A check is of an arena that is full but for a few cells.
    fn make_ready(&self, stand: &mut Stand<S>, entries: &[Entry]) -> Result<(), Refusal> {
        match self.kind {
            Kind::Remove => loops::insert_dropped(stand, entries)?,
            Kind::Check => {
                loops::insert_dropped(stand, &self.keys.added)?;
                loops::insert_kept(stand, &self.keys.replaced[..self.keys.size().min(BATCH)])?
            }
            _ => 0,
        };
        Ok(())
    }

    /// Afterwards the edition has the entries that it had before, and no other edition is held.
    fn clear_up(&self, stand: &mut Stand<S>, entries: &[Entry]) -> Result<(), Refusal> {
        stand.let_kept_go()?;
        match self.kind {
            Kind::InsertDropped => loops::remove(stand, entries)?,
            Kind::Check => loops::remove(stand, &self.keys.added)?,
            _ => 0,
        };
        Ok(())
    }
}
