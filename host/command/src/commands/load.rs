//! The command `load`: many entries put into one new edition.
use super::{Command, changed, edition};
use crate::Streams;
use crate::answer::{Outcome, Said};
use crate::args::Call;
use crate::failure::{Failure, explained, quoted};
use crate::numbers::{self, counted, grouped};
use shelf::{Arena, Cells, Edition, Entry, Refusal};
use std::fs::File;
use std::io::{self, BufRead, BufReader, Read, Write};

pub const LOAD: Command = Command {
    name: "load",
    operands: &["FILE", "EDITION", "TRIPLES"],
    options: &[],
    brief: "makes an edition with many entries put in",
    help: "Makes one edition with the entries of a text file put in, or of standard input where TRIPLES is `-`,\n\
           in the lowest free slot; the old edition is still held. A line is a hash, a key and a value, or\n\
           blank; `#` begins a comment.\n\
           \n\
           The entries are inserted one after the other, and each step's edition is dropped at once. So a load\n\
           of more than one entry needs two free slots, of which one is free again at the end, and cells for\n\
           one update more than the new edition takes. If a line is wrong (64) or a step is refused (7, 8, 9),\n\
           nothing is changed.",
    examples: &["day.arena 0 triples.txt", "day.arena 0 - < triples.txt"],
    run: load,
};

/// Bytes of the longest line that is read.
const LONGEST: u64 = 4_096;

fn load(call: &Call<'_>, streams: &mut Streams<'_>) -> Outcome {
    let base = edition(call)?;
    let name = call.operand("TRIPLES");
    let mut file;
    let (name, bytes, input): (_, _, &mut dyn BufRead) = if name == "-" {
        ("standard input".into(), None, &mut *streams.input)
    } else {
        let opened = File::open(name).map_err(|error| cannot_read(&name.to_string_lossy(), &error))?;
        let bytes = opened.metadata().ok().filter(|about| about.is_file()).map(|about| about.len());
        file = BufReader::new(opened);
        (name.to_string_lossy(), bytes, &mut file)
    };
    let progress = Progress { err: &mut *streams.err, shows: streams.err_is_terminal, bytes };
    let mut source = Source { name: &name, input, progress, text: Vec::new(), line: 0, read: 0 };
    let loaded = changed(call, |arena| fill(arena, base, &mut source));
    source.progress.clear();
    loaded?.done()
}

/// Puts every entry of the source in, drops each step's edition as soon as the next is there, and says what was made.
fn fill(arena: &mut Arena<Vec<u64>>, base: Edition, source: &mut Source<'_>) -> Result<Said, Failure> {
    arena.size(base)?;
    let before = arena.in_use()?;
    let mut last = None;
    let mut inserted = 0;
    while let Some(Entry { hash, key, value }) = source.next()? {
        let made = arena.insert(last.unwrap_or(base), hash, key, value);
        let made = made.map_err(|why| source.refused(why, inserted))?.edition;
        if let Some(step) = last.replace(made) {
            arena.drop(step)?;
        }
        inserted += 1;
    }
    let edition = match last {
        None => arena.share(base)?,
        Some(edition) if inserted == 1 => edition,
        // The steps had two slots by turns; the lower of them is where any other call would put what it makes.
        Some(edition) => {
            let other = arena.share(edition)?;
            arena.drop(edition.max(other))?;
            edition.min(other)
        }
    };
    let after = arena.in_use()?;
    let taken = Cells {
        branches: after.branches.saturating_sub(before.branches),
        entries: after.entries.saturating_sub(before.entries),
    };
    let size = arena.size(edition)?;
    let inserts = counted(inserted, "entry", "entries");
    let text = format!("{edition}: {inserts} put in, {} in all, {} taken", grouped(size), numbers::cells(taken));
    let said = Said::new(text).with("edition", edition.number()).with("inserted", inserted).with("size", size);
    Ok(said.with("branches", taken.branches).with("entries", taken.entries))
}

/// Lines of triples, and how far they are read.
struct Source<'a> {
    name: &'a str,
    input: &'a mut dyn BufRead,
    progress: Progress<'a>,
    text: Vec<u8>,
    line: u64,
    read: u64,
}

impl Source<'_> {
    /// The entry of the next line that has one.
    fn next(&mut self) -> Result<Option<Entry>, Failure> {
        loop {
            self.text.clear();
            let read = (&mut *self.input).take(LONGEST + 1).read_until(b'\n', &mut self.text);
            let read = read.map_err(|error| cannot_read(self.name, &error))? as u64;
            if read == 0 {
                return Ok(None);
            }
            self.line += 1;
            self.read += read;
            self.progress.show(self.line, self.read);
            match triple(&self.text) {
                Ok(None) => {}
                Ok(entry) => return Ok(entry),
                Err(wrong) => return Err(Failure::Usage(format!("{}: {wrong}; nothing is changed", self.place()))),
            }
        }
    }

    fn place(&self) -> String {
        format!("{}, line {}", self.name, self.line)
    }

    /// A refused insert, with the line that it is of.
    fn refused(&self, why: Refusal, inserted: u64) -> Failure {
        let because = if why == Refusal::NoSlot && inserted > 0 {
            "a load of more than one entry needs two free slots, and there is one".into()
        } else {
            explained(why)
        };
        Failure::refused(why, format!("{}: {because}; nothing is changed", self.place()))
    }
}

fn cannot_read(name: &str, error: &io::Error) -> Failure {
    Failure::system(format!("{name} cannot be read"), error)
}

/// The entry of a line, if it has one; else what is wrong with the line.
fn triple(line: &[u8]) -> Result<Option<Entry>, String> {
    if line.len() as u64 > LONGEST {
        return Err(format!("the line is longer than {} bytes", grouped(LONGEST)));
    }
    let text = String::from_utf8_lossy(line);
    let text = text.split('#').next().unwrap_or_default();
    let words: Vec<&str> = text.split_whitespace().take(4).collect();
    match words[..] {
        [] => Ok(None),
        [hash, key, value] => {
            Ok(Some(Entry { hash: numbers::parse(hash)?, key: numbers::parse(key)?, value: numbers::parse(value)? }))
        }
        _ => Err(format!("{} is not a hash, a key and a value", quoted(text.trim()))),
    }
}

/// A line on standard error that says how far a load is, if a person looks on.
struct Progress<'a> {
    err: &'a mut dyn Write,
    shows: bool,
    bytes: Option<u64>,
}

impl Progress<'_> {
    /// Lines between two looks, so that showing takes no time that counts.
    const STEP: u64 = 8_192;
    /// Characters of a full bar.
    const WIDTH: u64 = 40;

    fn show(&mut self, line: u64, read: u64) {
        if !self.shows || !line.is_multiple_of(Self::STEP) {
            return;
        }
        let lines = counted(line, "line", "lines");
        let _ = match self.bytes.filter(|bytes| *bytes > 0) {
            Some(bytes) => {
                let full = (Self::WIDTH as u128 * read.min(bytes) as u128 / bytes as u128) as usize;
                write!(self.err, "\r[{:<width$}] {lines}", "#".repeat(full), width = Self::WIDTH as usize)
            }
            None => write!(self.err, "\r{lines}"),
        };
    }

    fn clear(&mut self) {
        if self.shows {
            let _ = write!(self.err, "\r\x1b[K");
        }
    }
}
