//! Commands about an arena as a whole: `format`, `info`, `check`.
use super::{Command, looked_at};
use crate::Streams;
use crate::answer::{Answer, Outcome, Said};
use crate::args::{Call, Opt};
use crate::failure::Failure;
use crate::file::{Locked, zeros};
use crate::json::Json;
use crate::numbers::grouped;
use crate::table;
use shelf::{Arena, Edition, Refusal, Sizes};
use std::io::{self, Write};

pub const FORMAT: Command = Command {
    name: "format",
    operands: &["FILE"],
    options: &[
        Opt::number("--degree", "2, 4, 8, 16 (if it is not given), 32 or 64: how many children a branch has room for"),
        Opt::number("--branches", "branch cells, 1 to 1,048,576"),
        Opt::number("--entries", "entry cells, 1 to 4,194,304"),
        Opt::number("--editions", "editions held at once, 1 to 4,096"),
        Opt::flag("--force", "replace a file that is there, with every edition in it"),
    ],
    brief: "makes an arena file",
    help: "Makes an arena file in which no edition is held and every cell is free, and says how large it is.\n\
           --branches, --entries and --editions must be given. A file that is there is replaced only with\n\
           --force.",
    examples: &[
        "day.arena --branches 1000 --entries 1000 --editions 16",
        "day.arena --degree 64 --branches 0x100 --entries 4_096 --editions 8 --force",
    ],
    run: format,
};

pub const INFO: Command = Command {
    name: "info",
    operands: &["FILE"],
    options: &[],
    brief: "says what an arena has room for and what it holds",
    help: "Says the degree, the room of each kind with what is in use and what is free, and the editions that\n\
           are held with their numbers of entries.",
    examples: &["day.arena", "day.arena --json"],
    run: info,
};

pub const CHECK: Command = Command {
    name: "check",
    operands: &["FILE"],
    options: &[],
    brief: "tests every word of an arena",
    help: "Says `sound` if every word of the arena is as calls on a formatted arena leave it, else `damaged\n\
           (4)`. It takes a word of memory for each cell beside the arena.",
    examples: &["day.arena"],
    run: check,
};

fn format(call: &Call<'_>, _: &mut Streams<'_>) -> Outcome {
    let sizes = Sizes {
        degree: call.option("--degree").unwrap_or(16),
        branches: call.required("--branches")?,
        entries: call.required("--entries")?,
        editions: call.required("--editions")?,
    };
    let words = sizes.words()?;
    let arena = Arena::formatted(zeros(words)?, sizes)?;
    let locked = Locked::any(call.file())?;
    if locked.exists() && call.option("--force").is_none() {
        return Err(Failure::System(format!("{} is there already (--force replaces it)", call.file().display())));
    }
    locked.replace(arena.words())?;
    let words = words as u64;
    let text = format!("{} words, {} bytes", grouped(words), grouped(8 * words));
    Said::new(text).with("words", words).with("bytes", 8 * words).done()
}

fn check(call: &Call<'_>, _: &mut Streams<'_>) -> Outcome {
    let arena = looked_at(call)?;
    let mut work = zeros(arena.sizes()?.work_words())?;
    match arena.check(&mut work) {
        Ok(()) => Said::new("sound").with("sound", true).done(),
        Err(why) => Err(Failure::refused(why, "the header is right, but the arena is not sound")),
    }
}

/// How much room there is of a kind, and how much of it is in use.
struct Room {
    kind: &'static str,
    room: u64,
    in_use: u64,
    free: u64,
}

impl Room {
    fn new(kind: &'static str, room: u64, in_use: u64) -> Result<Room, Failure> {
        let because = || format!("the header says that {} of {} {kind} are in use", grouped(in_use), grouped(room));
        let free = room.checked_sub(in_use).ok_or_else(|| Failure::refused(Refusal::Damaged, because()))?;
        Ok(Room { kind, room, in_use, free })
    }
}

/// What `info` says.
struct Info {
    degree: u64,
    words: u64,
    beyond: u64,
    rooms: [Room; 3],
    held: Vec<(Edition, u64)>,
}

fn info(call: &Call<'_>, _: &mut Streams<'_>) -> Outcome {
    let arena = looked_at(call)?;
    let sizes = arena.sizes()?;
    let in_use = arena.in_use()?;
    let held: Vec<_> = arena.held().filter_map(|edition| Some((edition, arena.size(edition).ok()?))).collect();
    let words = sizes.words()? as u64;
    let rooms = [
        Room::new("branch cells", sizes.branches, in_use.branches)?,
        Room::new("entry cells", sizes.entries, in_use.entries)?,
        Room::new("editions", sizes.editions, held.len() as u64)?,
    ];
    let beyond = arena.words().len() as u64 - words;
    Ok(Box::new(Info { degree: sizes.degree, words, beyond, rooms, held }))
}

impl Answer for Info {
    fn text(&self, out: &mut dyn Write) -> io::Result<()> {
        write!(out, "degree {}, {} words", self.degree, grouped(self.words))?;
        match self.beyond {
            0 => writeln!(out, "\n")?,
            beyond => writeln!(out, ", and {} beyond them in the file\n", grouped(beyond))?,
        }
        let row = |room: &Room| [room.kind.into(), grouped(room.room), grouped(room.in_use), grouped(room.free)];
        table::write(out, ["", "room", "in use", "free"], self.rooms.iter().map(row))?;
        if self.held.is_empty() {
            return writeln!(out, "\nno edition is held");
        }
        writeln!(out)?;
        let rows = self.held.iter().map(|(edition, size)| [edition.number().to_string(), grouped(*size)]);
        table::write(out, ["edition", "entries"], rows)
    }

    fn json(&self, json: &mut Json<'_>) -> io::Result<()> {
        json.field("degree", self.degree)?;
        json.field("words", self.words)?;
        json.field("beyond", self.beyond)?;
        for (name, room) in ["branches", "entries", "editions"].iter().zip(&self.rooms) {
            json.name(name)?.object(|json| {
                json.field("room", room.room)?;
                json.field("in_use", room.in_use)?;
                json.field("free", room.free)
            })?;
        }
        json.name("held")?.list(|json| {
            self.held.iter().try_for_each(|(edition, size)| {
                json.object(|json| {
                    json.field("edition", edition.number())?;
                    json.field("size", *size)
                })
            })
        })
    }
}
