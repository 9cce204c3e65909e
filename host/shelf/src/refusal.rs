//! Why a call is refused, with document 01's numbers and words.
use std::fmt;

/// Why a call is refused. A refused call has altered nothing (the work words of a [`check`](crate::Arena::check)
/// aside).
#[derive(Clone, Copy, Debug, PartialEq, Eq, Hash, PartialOrd, Ord)]
#[repr(u8)]
pub enum Refusal {
    /// Format: the degree is not 2, 4, 8, 16, 32 or 64.
    BadDegree = 1,
    /// Format: branch cells, entry cells or editions out of range.
    BadSizes = 2,
    /// Format: fewer words than the arena takes.
    SliceTooShort = 3,
    /// The header is wrong or the slice too short for it; from a check: the arena is not sound.
    Damaged = 4,
    /// The number is not below the number of slots, or its slot is not held.
    NoSuchEdition = 5,
    /// Get, change, remove: the key is not there.
    Absent = 6,
    /// A new edition is wanted and every slot is held.
    NoSlot = 7,
    /// The update needs more branch cells than are free.
    NoBranchCells = 8,
    /// The update needs more entry cells than are free.
    NoEntryCells = 9,
    /// A listing: room for less than one entry, and there are entries to write.
    OutputTooShort = 10,
    /// A listing: the place is above the edition's size.
    BeyondTheEnd = 11,
    /// A check: fewer work words than there are cells.
    WorkTooShort = 12,
}

impl Refusal {
    /// Every refusal, in the order of the numbers.
    pub const ALL: [Refusal; 12] = [
        Refusal::BadDegree,
        Refusal::BadSizes,
        Refusal::SliceTooShort,
        Refusal::Damaged,
        Refusal::NoSuchEdition,
        Refusal::Absent,
        Refusal::NoSlot,
        Refusal::NoBranchCells,
        Refusal::NoEntryCells,
        Refusal::OutputTooShort,
        Refusal::BeyondTheEnd,
        Refusal::WorkTooShort,
    ];

    /// Document 01's number, 1 to 12.
    pub fn number(self) -> u64 {
        self as u64
    }

    /// The refusal with this number.
    pub fn from_number(number: u64) -> Option<Refusal> {
        let index = usize::try_from(number).ok()?.checked_sub(1)?;
        Refusal::ALL.get(index).copied()
    }

    /// Document 01's words for it.
    pub fn words(self) -> &'static str {
        match self {
            Refusal::BadDegree => "bad degree",
            Refusal::BadSizes => "bad sizes",
            Refusal::SliceTooShort => "slice too short",
            Refusal::Damaged => "damaged",
            Refusal::NoSuchEdition => "no such edition",
            Refusal::Absent => "absent",
            Refusal::NoSlot => "no slot",
            Refusal::NoBranchCells => "no branch cells",
            Refusal::NoEntryCells => "no entry cells",
            Refusal::OutputTooShort => "output too short",
            Refusal::BeyondTheEnd => "beyond the end",
            Refusal::WorkTooShort => "work too short",
        }
    }
}

impl fmt::Display for Refusal {
    fn fmt(&self, out: &mut fmt::Formatter<'_>) -> fmt::Result {
        write!(out, "{} ({})", self.words(), self.number())
    }
}

impl std::error::Error for Refusal {}
