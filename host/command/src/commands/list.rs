//! The command `list`: the entries of an edition in the order of its listing.
use super::{Command, edition, looked_at};
use crate::Streams;
use crate::answer::{Answer, Outcome};
use crate::args::{Call, Opt};
use crate::failure::Failure;
use crate::file::zeros;
use crate::json::Json;
use crate::numbers::{grouped, hex};
use crate::table;
use shelf::Refusal;
use std::io::{self, Write};

pub const LIST: Command = Command {
    name: "list",
    operands: &["FILE", "EDITION"],
    options: &[
        Opt::number("--from", "the place of the first entry, counted from 0"),
        Opt::number("--count", "how many entries at most"),
    ],
    brief: "lists the entries of an edition",
    help: "Lists the entries of an edition with their places: hash and key in hexadecimal, the value in\n\
           decimal.",
    examples: &["day.arena 3", "day.arena 3 --from 1000 --count 20 --json"],
    run: list,
};

/// Words of an entry in a listing.
const ENTRY: usize = 3;

/// A part of an edition's listing.
struct Listing {
    size: u64,
    from: u64,
    words: Vec<u64>,
    fault: Option<String>,
}

fn list(call: &Call<'_>, _: &mut Streams<'_>) -> Outcome {
    let edition = edition(call)?;
    let from = call.option("--from").unwrap_or(0);
    let arena = looked_at(call)?;
    let cells = arena.sizes()?.entries;
    let size = arena.size(edition)?;
    let wanted = size.saturating_sub(from).min(call.option("--count").unwrap_or(u64::MAX));
    // A sound edition has no more entries than the arena has cells for them: a size above that asks for no more room.
    let mut words = zeros(ENTRY * wanted.min(cells) as usize)?;
    let written = arena.list(edition, from, &mut words)?;
    words.truncate(ENTRY * written as usize);
    let fault = if size > cells {
        Some(format!("the edition says it has {} entries, of {} cells for them", grouped(size), grouped(cells)))
    } else if written < wanted {
        Some(format!("the edition says it has {} entries, but the listing ends before", grouped(size)))
    } else {
        None
    };
    Ok(Box::new(Listing { size, from, words, fault }))
}

impl Listing {
    /// Each entry's hash, key and value, and its place.
    fn rows(&self) -> impl Iterator<Item = ([u64; ENTRY], u64)> + Clone {
        self.words.as_chunks::<ENTRY>().0.iter().copied().zip(self.from..)
    }
}

impl Answer for Listing {
    fn text(&self, out: &mut dyn Write) -> io::Result<()> {
        if !self.words.is_empty() {
            let row = |([hash, key, value], place): ([u64; ENTRY], u64)| {
                [grouped(place), hex(hash), hex(key), value.to_string()]
            };
            table::write(out, ["place", "hash", "key", "value"], self.rows().map(row))?;
            writeln!(out)?;
        }
        let listed = (self.words.len() / ENTRY) as u64;
        writeln!(out, "{} of {} entries", grouped(listed), grouped(self.size))
    }

    fn json(&self, json: &mut Json<'_>) -> io::Result<()> {
        json.field("size", self.size)?;
        json.field("from", self.from)?;
        json.name("entries")?.list(|json| {
            self.rows().try_for_each(|([hash, key, value], _)| {
                json.object(|json| {
                    json.field("hash", hash)?;
                    json.field("key", key)?;
                    json.field("value", value)
                })
            })
        })
    }

    fn fault(&self) -> Option<Failure> {
        self.fault.as_ref().map(|fault| Failure::refused(Refusal::Damaged, fault))
    }
}
