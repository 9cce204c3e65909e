//! The commands, and how they get at the arena of a file.
mod arena;
mod editions;
mod entries;
mod list;
mod load;
mod show;
mod tag;

use crate::Streams;
use crate::answer::Outcome;
use crate::args::{Call, Opt};
use crate::failure::Failure;
use crate::file::{self, Locked};
use shelf::{Arena, Edition};

/// A command: what it takes, what it is for, and what it does.
pub struct Command {
    /// The word that asks for it.
    pub name: &'static str,
    /// The names of its operands, all of which must be there.
    pub operands: &'static [&'static str],
    /// Its options, beside those that every command has.
    pub options: &'static [Opt],
    /// What it is for, in a line.
    pub brief: &'static str,
    /// What it is for, at more length.
    pub help: &'static str,
    /// Examples of its arguments.
    pub examples: &'static [&'static str],
    /// Runs it.
    pub run: fn(&Call<'_>, &mut Streams<'_>) -> Outcome,
}

/// Every command, in the order in which help lists them.
pub const ALL: [&Command; 15] = [
    &arena::FORMAT,
    &arena::INFO,
    &arena::CHECK,
    &editions::NEW,
    &editions::SHARE,
    &editions::DROP,
    &editions::EQUAL,
    &entries::GET,
    &entries::INSERT,
    &entries::CHANGE,
    &entries::REMOVE,
    &load::LOAD,
    &list::LIST,
    &show::SHOW,
    &tag::TAG,
];

/// The arena of a command's file, to look at.
fn looked_at(call: &Call<'_>) -> Result<Arena<Vec<u64>>, Failure> {
    file::read(call.file()).map(Arena::over)
}

/// Changes the arena of a command's file: under its lock, and written only if the change is not refused.
fn changed<T>(call: &Call<'_>, change: impl FnOnce(&mut Arena<Vec<u64>>) -> Result<T, Failure>) -> Result<T, Failure> {
    let locked = Locked::existing(call.file())?;
    let mut arena = Arena::over(locked.read()?);
    let made = change(&mut arena)?;
    locked.replace(arena.words())?;
    Ok(made)
}

/// The edition that a command is about.
fn edition(call: &Call<'_>) -> Result<Edition, Failure> {
    call.number("EDITION").map(Edition)
}
