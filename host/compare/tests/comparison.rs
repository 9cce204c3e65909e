//! A small comparison finds no difference, and one against a side with a fault finds the fault.
use compare::comparison::{Report, compare};
use compare::library::{Library, Side};
use oracle::calls::{Answer, Call, number};
use oracle::rpds_trie::RpdsTrie;
use oracle::shelf::Shelf;

const OPERATIONS: u64 = 20_000;

/// What a comparison with a side has seen, and the differences that it told.
fn compared<S: Side>(operations: u64, make: impl Fn() -> S) -> (Report, Vec<String>) {
    let mut told = Vec::new();
    let report = compare(operations, 5, make, |difference| told.push(difference.to_string()));
    (report, told)
}

#[test]
fn the_library_answers_as_the_crate_does() {
    let (report, told) = compared(OPERATIONS, Library::default);
    assert_eq!((report.operations(), report.differences), (OPERATIONS, 0), "{told:?}");
}

#[test]
fn as_many_operations_are_compared_as_are_asked_for() {
    for operations in [0, 1, 7, 50, 1_001] {
        let (report, told) = compared(operations, Library::default);
        assert_eq!((report.operations(), report.differences), (operations, 0), "{told:?}");
    }
}

/// The oracle's own shelf of the crate's maps, which names every cell after every update.
#[derive(Default)]
struct Named(Shelf<RpdsTrie>);

impl Side for Named {
    fn call(&mut self, call: &Call) -> Result<Answer, String> {
        Ok(self.0.call(call))
    }

    fn is_sound(&mut self) -> bool {
        true
    }

    fn words(&self) -> &[u64] {
        &[]
    }
}

#[test]
fn cells_are_counted_as_the_oracle_counts_them() {
    let (report, told) = compared(OPERATIONS, Named::default);
    assert_eq!((report.operations(), report.differences), (OPERATIONS, 0), "{told:?}");
}

/// The library with a fault in what it answers.
struct Faulty {
    library: Library,
    fault: Fault,
}

type Fault = fn(&Call, &mut Answer);

impl Side for Faulty {
    fn call(&mut self, call: &Call) -> Result<Answer, String> {
        let mut answer = self.library.call(call)?;
        (self.fault)(call, &mut answer);
        Ok(answer)
    }

    fn is_sound(&mut self) -> bool {
        self.library.is_sound()
    }

    fn words(&self) -> &[u64] {
        self.library.words()
    }
}

/// One for another number.
fn mistake(answer: &mut Answer, one: u64, other: u64) {
    if answer.number == one {
        answer.number = other;
    }
}

const FAULTS: [(&str, Fault); 16] = [
    ("a new edition in another slot", |call, answer| answer.values[0] += u64::from(*call == Call::NewEdition)),
    ("a share in another slot", |call, answer| answer.values[0] += u64::from(matches!(call, Call::Share { .. }))),
    ("a size", |call, answer| answer.values[0] += u64::from(matches!(call, Call::Size { .. }))),
    ("entry cells in use", |call, answer| answer.values[1] += u64::from(*call == Call::InUse)),
    ("a value", |call, answer| answer.values[0] ^= u64::from(matches!(call, Call::Get { .. })) << 63),
    ("every two editions equal", |call, answer| answer.values[0] |= u64::from(matches!(call, Call::Equal { .. }))),
    ("copies of a chain's entries not counted", |call, answer| {
        if call.is_update() {
            answer.values[2] = answer.values[2].min(1);
        }
    }),
    ("a path of ten branches at most", |call, answer| {
        if call.is_update() {
            answer.values[1] = answer.values[1].min(10);
        }
    }),
    ("a drop that frees one entry fewer", |call, answer| {
        if matches!(call, Call::Drop { .. }) {
            answer.values[1] = answer.values[1].saturating_sub(1);
        }
    }),
    ("a listing's third value", |_, answer| {
        answer.listed.iter_mut().skip(2).take(1).for_each(|entry| entry.value ^= 1)
    }),
    ("a listing backwards", |_, answer| answer.listed.reverse()),
    ("a listing's last entry", |_, answer| answer.listed.truncate(answer.listed.len().saturating_sub(1))),
    ("9 for 8", |_, answer| mistake(answer, number::NO_BRANCH_CELLS, number::NO_ENTRY_CELLS)),
    ("7 for 9", |_, answer| mistake(answer, number::NO_ENTRY_CELLS, number::NO_SLOT)),
    ("6 for 5", |_, answer| mistake(answer, number::NO_SUCH_EDITION, number::ABSENT)),
    ("10 for 11", |_, answer| mistake(answer, number::BEYOND_THE_END, number::OUTPUT_TOO_SHORT)),
];

#[test]
fn each_fault_is_found_and_told() {
    for (name, fault) in FAULTS {
        let (report, told) = compared(OPERATIONS, || Faulty { library: Library::default(), fault });
        assert!(report.differences > 0, "{name}");
        assert_eq!(told.len() as u64, report.differences, "{name}");
        for part in ["operation ", "seed 5", "degree ", "the crate:", "the library:"] {
            assert!(told.iter().all(|text| text.contains(part)), "{name}: {told:?}");
        }
    }
}

#[test]
fn a_comparison_stops_at_ten_differences() {
    let fault: Fault = |_, answer| answer.values[2] += 1;
    let (report, told) = compared(OPERATIONS, || Faulty { library: Library::default(), fault });
    assert_eq!((report.differences, told.len()), (10, 10));
}

/// The library, seen through words of which one is altered by each refusal, or by each size.
#[derive(Default)]
struct Altering {
    library: Library,
    words: Vec<u64>,
    is_by_size: bool,
}

impl Side for Altering {
    fn call(&mut self, call: &Call) -> Result<Answer, String> {
        let answer = self.library.call(call)?;
        self.words = self.library.words().to_vec();
        let is_size = matches!(call, Call::Size { .. });
        if if self.is_by_size { is_size } else { answer.number != number::DONE } {
            self.words.iter_mut().skip(8).take(1).for_each(|word| *word += 1);
        }
        Ok(answer)
    }

    fn is_sound(&mut self) -> bool {
        true
    }

    fn words(&self) -> &[u64] {
        &self.words
    }
}

#[test]
fn a_refusal_or_a_read_that_alters_a_word_is_found() {
    for is_by_size in [false, true] {
        let (report, told) = compared(OPERATIONS, || Altering { is_by_size, ..Altering::default() });
        assert!(report.differences > 0);
        assert!(told.iter().all(|text| text.contains("alters the arena")), "{told:?}");
    }
}
