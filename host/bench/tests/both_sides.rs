//! Short runs: both sides do the same, and nothing is refused for want of room.
use bench::keys::Keys;
use bench::kinds::Kind;
use bench::once::{Once, Which};
use bench::passes::Passes;
use bench::rounds::{self, Plan};
use bench::sides::{Crate, Library, Stand};
use std::time::Duration;

#[test]
fn a_round_agrees_at_every_degree() {
    let plan = Plan { kinds: Kind::ALL.to_vec(), rounds: 2, least: Duration::ZERO };
    for degree in oracle::DEGREES {
        let outcomes = rounds::run(degree, 300, &plan).expect("the sides agree");
        assert_eq!(outcomes.iter().map(|outcome| outcome.kind).collect::<Vec<_>>(), Kind::ALL);
        for outcome in outcomes {
            let compared = outcome.kind != Kind::Check;
            assert_eq!((outcome.ratio.is_some(), outcome.crate_nanoseconds.is_some()), (compared, compared));
            assert!(outcome.library_nanoseconds > 0.0);
        }
    }
}

#[test]
fn more_kept_editions_than_one_batch() {
    let plan = Plan { kinds: vec![Kind::InsertKept, Kind::Check], rounds: 5, least: Duration::ZERO };
    assert!(rounds::run(16, 4_000, &plan).is_ok());
}

#[test]
fn once_does_as_many_as_it_is_told() {
    for kind in Kind::ALL {
        let once = |side, count| Once { kind, side, size: 300, degree: 16, count }.run();
        let library = once(Which::Library, 401).expect("there is room");
        match once(Which::Crate, 401) {
            Ok(of_crate) => assert_eq!((of_crate.sum, of_crate.operations), (library.sum, library.operations)),
            Err(why) => assert_eq!((kind, why.to_string()), (Kind::Check, "the crate has no check".to_string())),
        }
        match kind {
            Kind::List => assert_eq!(library.operations, 401 * 300),
            Kind::Check => assert_eq!(library.operations % 401, 0),
            _ => assert_eq!(library.operations, 401),
        }
    }
}

/// The sums of the edition's listing with all kinds gone through, one after the other.
fn listed_after_each<S: bench::loops::Loops>(keys: &Keys) -> Vec<u64> {
    let mut stand = Stand::<S>::build(16, keys).expect("there is room");
    let mut sums = Vec::new();
    for kind in Kind::ALL {
        if let Some(passes) = Passes::new(kind, keys) {
            passes.measure(&mut stand, 3).expect("nothing is refused");
        }
        sums.push(stand.side.list(&stand.edition).expect("there is room"));
    }
    sums
}

#[test]
fn only_replacing_alters_the_edition() {
    let keys = Keys::new(1_000);
    let sums = listed_after_each::<Library>(&keys);
    assert_eq!(sums, listed_after_each::<Crate>(&keys));
    let replacing = Kind::ALL.iter().position(|kind| *kind == Kind::Replace).expect("it is a kind");
    let altered: Vec<usize> = (1..sums.len()).filter(|at| sums[*at] != sums[*at - 1]).collect();
    assert_eq!(altered, [replacing]);
}
