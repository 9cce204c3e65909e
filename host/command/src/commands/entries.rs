//! Commands about one entry: `get`, `insert`, `change`, `remove`.
use super::{Command, changed, edition, looked_at};
use crate::Streams;
use crate::answer::{Outcome, Said};
use crate::args::Call;
use crate::failure::Failure;
use crate::numbers;
use shelf::{Arena, Edition, Refusal, Update};

pub const GET: Command = Command {
    name: "get",
    operands: &["FILE", "EDITION", "HASH", "KEY"],
    options: &[],
    brief: "says the value of a hash and a key",
    help: "Says the value that an edition has for a hash and a key, in decimal.",
    examples: &["day.arena 3 0x26 1", "day.arena 3 0x7000_0000_0000_0008 0x3005_1042 --json"],
    run: get,
};

pub const INSERT: Command = Command {
    name: "insert",
    operands: &["FILE", "EDITION", "HASH", "KEY", "VALUE"],
    options: &[],
    brief: "makes an edition with an entry put in",
    help: "Makes an edition with an entry put in, in the lowest free slot; the old edition is still held. An\n\
           entry with the same hash and key is replaced. Says the new edition's number and the cells that it\n\
           took.",
    examples: &["day.arena 0 0x26 1 10"],
    run: insert,
};

pub const CHANGE: Command = Command {
    name: "change",
    operands: &["FILE", "EDITION", "HASH", "KEY", "VALUE"],
    options: &[],
    brief: "makes an edition with another value",
    help: "As insert, but refused with 6 if the edition has no entry with this hash and key.",
    examples: &["day.arena 1 0x26 1 11"],
    run: change,
};

pub const REMOVE: Command = Command {
    name: "remove",
    operands: &["FILE", "EDITION", "HASH", "KEY"],
    options: &[],
    brief: "makes an edition with an entry taken out",
    help: "Makes an edition with an entry taken out, in the lowest free slot; the old edition is still held.\n\
           Says the new edition's number and the cells that it took.",
    examples: &["day.arena 2 0x26 1"],
    run: remove,
};

fn get(call: &Call<'_>, _: &mut Streams<'_>) -> Outcome {
    let (of, [hash, key]) = (edition(call)?, element(call)?);
    let value = looked_at(call)?.get(of, hash, key)?;
    Said::new(value.to_string()).with("value", value).done()
}

fn insert(call: &Call<'_>, _: &mut Streams<'_>) -> Outcome {
    let ([hash, key], value) = (element(call)?, call.number("VALUE")?);
    update(call, |arena, of| arena.insert(of, hash, key, value))
}

fn change(call: &Call<'_>, _: &mut Streams<'_>) -> Outcome {
    let ([hash, key], value) = (element(call)?, call.number("VALUE")?);
    update(call, |arena, of| arena.change(of, hash, key, value))
}

fn remove(call: &Call<'_>, _: &mut Streams<'_>) -> Outcome {
    let [hash, key] = element(call)?;
    update(call, |arena, of| arena.remove(of, hash, key))
}

/// The hash and the key that a command is about.
fn element(call: &Call<'_>) -> Result<[u64; 2], Failure> {
    Ok([call.number("HASH")?, call.number("KEY")?])
}

/// Makes an edition of another one, and says what it took.
fn update(call: &Call<'_>, make: impl FnOnce(&mut Arena<Vec<u64>>, Edition) -> Result<Update, Refusal>) -> Outcome {
    let of = edition(call)?;
    let Update { edition, taken } = changed(call, |arena| Ok(make(arena, of)?))?;
    Said::new(format!("{edition}: {} taken", numbers::cells(taken)))
        .with("edition", edition.number())
        .with("branches", taken.branches)
        .with("entries", taken.entries)
        .done()
}
