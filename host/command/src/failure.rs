//! Why a command fails, as a sentence and as an exit status.
use crate::json::Json;
use crate::numbers::grouped;
use shelf::{Refusal, Sizes};
use std::fmt::Display;
use std::io;

/// The exit status of a command line that is not understood, or of a line of triples.
pub const USAGE: u8 = 64;
/// The exit status where the system fails: a file that cannot be read or written, no room.
pub const SYSTEM: u8 = 74;
/// The exit status where another command is changing the file.
pub const LOCKED: u8 = 75;

/// Why a command fails.
pub enum Failure {
    /// The library refuses the call, or the file is seen to be damaged.
    Refused {
        /// Document 01's refusal.
        why: Refusal,
        /// What led to it, for people.
        because: String,
    },
    /// The command line, or a line of triples, is not understood.
    Usage(String),
    /// The system fails.
    System(String),
    /// Another command is changing the file.
    Locked(String),
}

impl Failure {
    /// A refusal with a sentence of its own.
    pub fn refused(why: Refusal, because: impl Into<String>) -> Failure {
        Failure::Refused { why, because: because.into() }
    }

    /// A failure of the system: what could not be done, and why.
    pub fn system(what: impl Display, error: &io::Error) -> Failure {
        Failure::System(format!("{what}: {error}"))
    }

    /// The exit status.
    pub fn status(&self) -> u8 {
        match self {
            Failure::Refused { why, .. } => why.number() as u8,
            Failure::Usage(_) => USAGE,
            Failure::System(_) => SYSTEM,
            Failure::Locked(_) => LOCKED,
        }
    }

    /// The failure for people.
    pub fn sentence(&self) -> String {
        match self {
            Failure::Refused { why, because } => format!("{why}: {because}"),
            Failure::Usage(text) | Failure::System(text) | Failure::Locked(text) => text.clone(),
        }
    }

    /// The field that tells programs of the failure beside its number.
    pub fn json(&self, json: &mut Json<'_>) -> io::Result<()> {
        match self {
            Failure::Refused { why, .. } => json.field("refusal", why.words()),
            Failure::Usage(text) | Failure::System(text) | Failure::Locked(text) => {
                json.field("failure", text.as_str())
            }
        }
    }
}

impl From<Refusal> for Failure {
    fn from(why: Refusal) -> Failure {
        Failure::Refused { why, because: explained(why) }
    }
}

/// What a refusal means for the person at the command.
pub fn explained(why: Refusal) -> String {
    let text = match why {
        Refusal::BadDegree => "a degree is 2, 4, 8, 16, 32 or 64",
        Refusal::BadSizes => {
            let most = [Sizes::MOST_BRANCHES, Sizes::MOST_ENTRIES, Sizes::MOST_EDITIONS].map(grouped);
            let [branches, entries, editions] = most;
            return format!(
                "an arena has 1 to {branches} branch cells, 1 to {entries} entry cells and 1 to {editions} editions"
            );
        }
        Refusal::SliceTooShort => "these are more words than fit here",
        Refusal::Damaged => "the header is wrong, or the file is shorter than the header says",
        Refusal::NoSuchEdition => "no edition of this number is held (`shelf info FILE` lists those that are)",
        Refusal::Absent => "the edition has no entry with this hash and key",
        Refusal::NoSlot => "every slot holds an edition (`shelf drop` frees one)",
        Refusal::NoBranchCells => "the update takes more branch cells than are free (`shelf drop` may free some)",
        Refusal::NoEntryCells => "the update takes more entry cells than are free (`shelf drop` may free some)",
        Refusal::OutputTooShort => "a listing needs room for one entry at least",
        Refusal::BeyondTheEnd => "the place is above the edition's number of entries",
        Refusal::WorkTooShort => "a check needs a work word for each cell",
    };
    text.into()
}

/// What a person wrote, in a sentence: short, and without characters that a terminal acts on.
pub fn quoted(text: &str) -> String {
    const SHOWN: usize = 40;
    let cut = if text.chars().nth(SHOWN).is_some() { "…" } else { "" };
    let shown: String = text.chars().take(SHOWN).collect();
    format!("`{}{cut}`", shown.escape_debug())
}
