//! Ratios of the two sides over the rounds: their median and their spread.
use crate::kinds::Kind;

/// How some numbers are spread.
#[derive(Clone, Copy, Debug, PartialEq)]
pub struct Spread {
    /// The lowest.
    pub lowest: f64,
    /// A quarter of them are below it.
    pub lower: f64,
    /// Half of them are below it.
    pub median: f64,
    /// A quarter of them are above it.
    pub upper: f64,
    /// The highest.
    pub highest: f64,
}

impl Spread {
    /// The spread of some numbers, of which there is at least one.
    pub fn of(numbers: &[f64]) -> Option<Spread> {
        let mut sorted = numbers.to_vec();
        sorted.sort_by(f64::total_cmp);
        // Between two numbers, in proportion.
        let at = |part: f64| {
            let place = part * (sorted.len() - 1) as f64;
            let (below, above) = (sorted[place.floor() as usize], sorted[place.ceil() as usize]);
            below + (above - below) * place.fract()
        };
        let (lowest, highest) = (*sorted.first()?, *sorted.last()?);
        Some(Spread { lowest, lower: at(0.25), median: at(0.5), upper: at(0.75), highest })
    }
}

/// What the rounds of one kind came to.
#[derive(Clone, Copy, Debug)]
pub struct Outcome {
    /// The degree.
    pub degree: u64,
    /// How many entries the edition has.
    pub size: usize,
    /// The kind of operation.
    pub kind: Kind,
    /// The crate's nanoseconds per operation, the median of the rounds, if it has such an operation.
    pub crate_nanoseconds: Option<f64>,
    /// The library's nanoseconds per operation, the median of the rounds.
    pub library_nanoseconds: f64,
    /// The library's time divided by the crate's in the same round.
    pub ratio: Option<Spread>,
}

impl Outcome {
    /// The most that the ratio is to be, where that was laid down.
    pub fn target(&self) -> Option<f64> {
        match (self.degree, self.kind, self.size) {
            (_, Kind::Check, _) => None,
            (64, _, _) => Some(1.2),
            (16, Kind::GetHit, 300) => Some(1.2),
            (16, Kind::GetHit, 10_000) => Some(1.0),
            (16, Kind::GetHit, 1_000_000) => Some(0.9),
            (16, Kind::InsertDropped | Kind::Replace | Kind::Remove | Kind::List, _) => Some(1.0),
            _ => None,
        }
    }

    /// Whether the target is met, by the median as it is printed, with two decimals.
    pub fn met(&self) -> Option<bool> {
        let hundredths = |ratio: f64| (100.0 * ratio).round() as u64;
        Some(hundredths(self.ratio?.median) <= hundredths(self.target()?))
    }
}

#[cfg(test)]
mod tests {
    use super::*;

    #[test]
    fn the_spread_is_by_rank() {
        let spread = Spread::of(&[5.0, 1.0, 4.0, 2.0, 3.0]).unwrap();
        assert_eq!(spread, Spread { lowest: 1.0, lower: 2.0, median: 3.0, upper: 4.0, highest: 5.0 });
        let spread = Spread::of(&[1.0, 2.0]).unwrap();
        assert_eq!(spread, Spread { lowest: 1.0, lower: 1.25, median: 1.5, upper: 1.75, highest: 2.0 });
        assert_eq!(Spread::of(&[7.0]).unwrap().median, 7.0);
        assert_eq!(Spread::of(&[]), None);
    }

    #[test]
    fn a_target_is_met_by_the_ratio_as_printed() {
        let met = |degree, size, kind, ratio: f64| {
            let ratio = Spread::of(&[ratio]);
            let (crate_nanoseconds, library_nanoseconds) = (Some(1.0), 1.0);
            Outcome { degree, size, kind, crate_nanoseconds, library_nanoseconds, ratio }.met()
        };
        assert_eq!(met(16, 300, Kind::GetHit, 1.2), Some(true));
        assert_eq!(met(16, 10_000, Kind::GetHit, 1.004), Some(true));
        assert_eq!(met(16, 1_000_000, Kind::GetHit, 0.906), Some(false));
        assert_eq!(met(16, 300, Kind::InsertKept, 9.0), None);
        assert_eq!(met(64, 300, Kind::InsertKept, 9.0), Some(false));
        assert_eq!(met(32, 300, Kind::Remove, 0.5), None);
    }
}
