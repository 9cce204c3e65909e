//! What was compared: calls by degree and kind, and the table of them.
use oracle::calls::{Answer, Call, Cells};
use shelf::Refusal;
use std::fmt;

/// The kinds of calls, as the table names them; check is the last.
const KINDS: [&str; 13] = [
    "format",
    "new edition",
    "share",
    "insert",
    "change",
    "remove",
    "drop",
    "size",
    "in use",
    "get",
    "list",
    "equal",
    "check",
];

fn kind(call: &Call) -> usize {
    match call {
        Call::Format { .. } => 0,
        Call::NewEdition => 1,
        Call::Share { .. } => 2,
        Call::Insert { .. } => 3,
        Call::Change { .. } => 4,
        Call::Remove { .. } => 5,
        Call::Drop { .. } => 6,
        Call::Size { .. } => 7,
        Call::InUse => 8,
        Call::Get { .. } => 9,
        Call::List { .. } => 10,
        Call::Equal { .. } => 11,
    }
}

/// What was compared at a degree.
#[derive(Clone, Default)]
pub struct Tally {
    degree: u64,
    calls: [u64; KINDS.len()],
    refused: [u64; Refusal::ALL.len()],
    listed: u64,
    equal: u64,
    whole_counts: u64,
    largest: u64,
    most: Cells,
}

impl Tally {
    /// Nothing yet, at a degree.
    pub fn new(degree: u64) -> Tally {
        Tally { degree, ..Tally::default() }
    }

    /// Counts a call and what was answered.
    pub fn call(&mut self, call: &Call, answer: &Answer) {
        self.calls[kind(call)] += 1;
        self.listed += answer.listed.len() as u64;
        if let Some(count) = (answer.number as usize).checked_sub(1).and_then(|at| self.refused.get_mut(at)) {
            *count += 1;
        } else if matches!(call, Call::Equal { .. }) {
            self.equal += answer.values[0];
        }
    }

    /// Counts a check.
    pub fn check(&mut self) {
        self.calls[KINDS.len() - 1] += 1;
    }

    /// Notes an edition's size, and the cells in use.
    pub fn see(&mut self, size: u64, in_use: Cells) {
        self.largest = self.largest.max(size);
        self.most.branches = self.most.branches.max(in_use.branches);
        self.most.entries = self.most.entries.max(in_use.entries);
    }

    /// Counts a count of all cells.
    pub fn count_whole(&mut self) {
        self.whole_counts += 1;
    }

    /// How many calls were compared.
    pub fn operations(&self) -> u64 {
        self.calls.iter().sum()
    }
}

/// The table of some degrees: a row for each kind of call and each refusal, a column for each degree.
pub struct Table<'a>(pub &'a [Tally]);

impl Table<'_> {
    fn row(&self, out: &mut fmt::Formatter<'_>, name: &str, number: impl Fn(&Tally) -> u64) -> fmt::Result {
        write!(out, "{name:<28}")?;
        for tally in self.0 {
            write!(out, "{:>11}", number(tally))?;
        }
        writeln!(out)
    }
}

impl fmt::Display for Table<'_> {
    fn fmt(&self, out: &mut fmt::Formatter<'_>) -> fmt::Result {
        self.row(out, "degree", |tally| tally.degree)?;
        for (at, name) in KINDS.iter().enumerate() {
            self.row(out, name, |tally| tally.calls[at])?;
        }
        self.row(out, "operations", Tally::operations)?;
        for (at, why) in Refusal::ALL.iter().enumerate() {
            if self.0.iter().any(|tally| tally.refused[at] > 0) {
                self.row(out, &format!("refused: {why}"), |tally| tally.refused[at])?;
            }
        }
        self.row(out, "entries listed", |tally| tally.listed)?;
        self.row(out, "equal pairs", |tally| tally.equal)?;
        self.row(out, "counts of all cells", |tally| tally.whole_counts)?;
        self.row(out, "largest edition", |tally| tally.largest)?;
        self.row(out, "most branch cells in use", |tally| tally.most.branches)?;
        self.row(out, "most entry cells in use", |tally| tally.most.entries)
    }
}
