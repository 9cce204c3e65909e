//! A study's headers on the shelf: they are loaded, a rewrite moves a private block, and the older edition keeps all it
//! had.
use shelf::{Arena, Cells, Class, Edition, Entry, Refusal, Sizes, Tag, Words};
use std::collections::BTreeMap;
use std::error::Error;
use std::io::{self, Write};

/// An element of the study's headers: its tag, what it holds, and where it starts in the file.
struct Element {
    tag: Tag,
    name: &'static str,
    place: u64,
}

const fn element(group: u16, element: u16, name: &'static str, place: u64) -> Element {
    Element { tag: Tag { group, element }, name, place }
}

/// The study as it comes in. Group 3005 is private, and its block 10 belongs to the creator that stands before it.
const STUDY: [Element; 19] = [
    element(0x0008, 0x0016, "SOP class UID", 334),
    element(0x0008, 0x0018, "SOP instance UID", 372),
    element(0x0008, 0x0020, "study date", 430),
    element(0x0008, 0x0060, "modality", 446),
    element(0x0010, 0x0010, "patient name", 456),
    element(0x0010, 0x0020, "patient ID", 478),
    element(0x0020, 0x000d, "study UID", 494),
    element(0x0020, 0x000e, "series UID", 552),
    element(0x0028, 0x0010, "rows", 610),
    element(0x0028, 0x0011, "columns", 620),
    element(0x3004, 0x0002, "dose units", 630),
    element(0x3004, 0x0004, "dose type", 640),
    element(0x3004, 0x000a, "dose summation type", 656),
    element(0x3004, 0x000e, "dose grid scaling", 668),
    element(0x3005, 0x0010, "private creator", 688),
    element(0x3005, 0x1001, "plan revision", 716),
    element(0x3005, 0x1042, "dose curve", 734),
    element(0x3005, 0x1043, "dose curve unit", 8_942),
    element(0x7fe0, 0x0010, "pixel data", 8_962),
];

const DOSE_CURVE: Tag = Tag { group: 0x3005, element: 0x1042 };

const REWRITE: [&str; 3] = [
    "Another creator has block 10 of group 3005, so the elements of ours move to block 11. Each is",
    "taken out under its old tag and put in under its new one. That is edition B; edition A stays.",
    "No edition ever loses an entry that no call on that edition took away: this is proved.",
];

const TO_GO_ON: [&str; 2] = [
    "host/target/release/shelf --help   the same from the command line, with the arena in a file",
    "README.md                          what is here and what is proved; use from Rust and from C",
];

/// How far behind their old places the rewrite puts the elements that it moves.
const FURTHER: u64 = 1_056_862;

/// The hash of a key. Any function will do that gives equal keys equal hashes; this one (splitmix64) spreads them well.
fn hash(key: u64) -> u64 {
    let mixed = key.wrapping_add(0x9e37_79b9_7f4a_7c15);
    let mixed = (mixed ^ (mixed >> 30)).wrapping_mul(0xbf58_476d_1ce4_e5b9);
    let mixed = (mixed ^ (mixed >> 27)).wrapping_mul(0x94d0_49bb_1331_11eb);
    mixed ^ (mixed >> 31)
}

/// The tag of an element once block 10 of the private groups is block 11; none if it does not move.
fn moved(tag: Tag) -> Option<Tag> {
    match tag.class() {
        Class::Creator { block: 0x10 } => Some(Tag { element: 0x0011, ..tag }),
        Class::Private { block: 0x10, low } => Some(Tag { element: 0x1100 + u16::from(low), ..tag }),
        _ => None,
    }
}

/// A shelf on which every update lets go of the edition that it was made of, unless that one is to be kept.
struct Shelf {
    arena: Arena<Words>,
    kept: Option<Edition>,
}

impl Shelf {
    fn after(&mut self, older: Edition, newer: Edition) -> Result<Edition, Refusal> {
        if self.kept != Some(older) {
            self.arena.drop(older)?;
        }
        Ok(newer)
    }

    fn put(&mut self, edition: Edition, tag: Tag, place: u64) -> Result<Edition, Refusal> {
        let newer = self.arena.insert(edition, hash(tag.key()), tag.key(), place)?.edition;
        self.after(edition, newer)
    }

    fn take_out(&mut self, edition: Edition, tag: Tag) -> Result<Edition, Refusal> {
        let newer = self.arena.remove(edition, hash(tag.key()), tag.key())?.edition;
        self.after(edition, newer)
    }

    fn load(&mut self) -> Result<Edition, Refusal> {
        let mut edition = self.arena.new_edition()?;
        for element in &STUDY {
            edition = self.put(edition, element.tag, element.place)?;
        }
        Ok(edition)
    }

    /// Takes each element of the block out under its old tag and puts it in under its new one.
    fn rewrite(&mut self, study: Edition) -> Result<Edition, Refusal> {
        self.kept = Some(study);
        let mut edition = study;
        for element in &STUDY {
            if let Some(tag) = moved(element.tag) {
                edition = self.take_out(edition, element.tag)?;
                edition = self.put(edition, tag, element.place + FURTHER)?;
            }
        }
        Ok(edition)
    }

    fn find(&self, edition: Edition, tag: Tag) -> Result<Option<u64>, Refusal> {
        match self.arena.get(edition, hash(tag.key()), tag.key()) {
            Ok(place) => Ok(Some(place)),
            Err(Refusal::Absent) => Ok(None),
            Err(why) => Err(why),
        }
    }

    fn listing(&self, edition: Edition) -> Result<Vec<Entry>, Refusal> {
        self.arena.entries(edition)?.collect()
    }

    /// The cells that an edition would take if it were alone: on a copy of the arena the other one is dropped.
    fn alone(&self, other: Edition) -> Result<Cells, Refusal> {
        let mut copy = Arena::over(self.arena.words().to_vec());
        copy.drop(other)?;
        copy.in_use()
    }
}

/// Where something is, or that it is nowhere.
fn shown(place: Option<u64>) -> String {
    place.map_or("-".to_string(), |place| place.to_string())
}

fn in_words(cells: Cells) -> String {
    format!("{} branch and {} entry cells", cells.branches, cells.entries)
}

/// What an element holds, whichever of its two tags it has.
fn name(tag: Tag) -> &'static str {
    let is_of = |element: &&Element| element.tag == tag || moved(element.tag) == Some(tag);
    STUDY.iter().find(is_of).map_or("", |element| element.name)
}

/// Lines of the story, indented under their heading.
type Lines = Result<Vec<String>, Refusal>;

/// Both editions side by side, by tag.
fn both(shelf: &Shelf, a: Edition, b: Edition) -> Lines {
    let mut rows: BTreeMap<u64, [Option<u64>; 2]> = BTreeMap::new();
    for (column, edition) in [a, b].into_iter().enumerate() {
        for entry in shelf.listing(edition)? {
            rows.entry(entry.key).or_default()[column] = Some(entry.value);
        }
    }
    let heading = format!("{:11}  {:19}  {:30}  {:>9}  {:>9}", "tag", "element", "class", "edition A", "edition B");
    let row = |(key, [in_a, in_b]): (u64, [Option<u64>; 2])| {
        let tag = Tag { group: (key >> 16) as u16, element: key as u16 };
        let mark = match (in_a, in_b) {
            (Some(_), None) => "  moved",
            (None, Some(_)) => "  new tag",
            _ => "",
        };
        let class = tag.class().to_string();
        format!("{tag}  {:19}  {class:30}  {:>9}  {:>9}{mark}", name(tag), shown(in_a), shown(in_b))
    };
    Ok(std::iter::once(heading).chain(rows.into_iter().map(row)).collect())
}

/// What the editions take, each by itself and both together.
fn cells(shelf: &Shelf, a: Edition, b: Edition) -> Lines {
    let (of_a, of_b, together) = (shelf.alone(b)?, shelf.alone(a)?, shelf.arena.in_use()?);
    let shared = Cells {
        branches: of_a.branches + of_b.branches - together.branches,
        entries: of_a.entries + of_b.entries - together.entries,
    };
    Ok(vec![
        format!("edition A by itself    {:2} entries in {}", shelf.arena.size(a)?, in_words(of_a)),
        format!("edition B by itself    {:2} entries in {}", shelf.arena.size(b)?, in_words(of_b)),
        format!("both on one shelf      {}, since the two share", in_words(together)),
        format!("                       {}", in_words(shared)),
    ])
}

fn dose_curve(shelf: &Shelf, a: Edition, b: Edition) -> Lines {
    let mut lines = vec![format!("{:11}  {:>9}  {:>9}", "tag", "edition A", "edition B")];
    for tag in [Some(DOSE_CURVE), moved(DOSE_CURVE)].into_iter().flatten() {
        lines.push(format!("{tag}  {:>9}  {:>9}", shown(shelf.find(a, tag)?), shown(shelf.find(b, tag)?)));
    }
    Ok(lines)
}

/// Lets the newer edition go. The story ends in a refusal if the older one is not what it was before there was a newer
/// one, or if the arena is not sound.
fn after_drop(shelf: &mut Shelf, a: Edition, b: Edition, as_loaded: &[Entry]) -> Lines {
    let freed = shelf.arena.drop(b)?;
    if shelf.listing(a)? != as_loaded {
        return Err(Refusal::Damaged);
    }
    let mut work = vec![0; shelf.arena.sizes()?.work_words()];
    shelf.arena.check(&mut work)?;
    Ok(vec![
        format!("freed                  {}", in_words(freed)),
        format!("edition A              {} entries, all of them at their places", shelf.arena.size(a)?),
        format!("its dose curve         {}", shown(shelf.find(a, DOSE_CURVE)?)),
        "the arena, by a check  sound".to_string(),
    ])
}

fn story() -> Result<String, Box<dyn Error>> {
    let sizes = Sizes { degree: 16, branches: 200, entries: 60, editions: 4 };
    let mut shelf = Shelf { arena: Arena::owned(sizes)?, kept: None };
    let a = shelf.load()?;
    let (as_loaded, words) = (shelf.listing(a)?, shelf.arena.words().len());
    let loaded = vec![
        "Its headers are put into an edition: each element's tag, and where in the file it starts.".to_string(),
        format!("Edition A has {} elements, in an arena of {} words.", as_loaded.len(), words),
    ];
    let b = shelf.rewrite(a)?;
    let chapters = [
        ("A study comes in", loaded),
        ("A rewrite moves a private block", REWRITE.map(String::from).to_vec()),
        ("The two editions, side by side", both(&shelf, a, b)?),
        ("What they take", cells(&shelf, a, b)?),
        ("Where is the dose curve?", dose_curve(&shelf, a, b)?),
        ("The newer edition is dropped", after_drop(&mut shelf, a, b, &as_loaded)?),
        ("To go on", TO_GO_ON.map(String::from).to_vec()),
    ];
    let told = chapters.map(|(heading, lines)| format!("{heading}\n  {}\n", lines.join("\n  ")));
    Ok(told.join("\n"))
}

fn main() -> Result<(), Box<dyn Error>> {
    match io::stdout().write_all(story()?.as_bytes()) {
        // Whoever has read enough may close the pipe.
        Err(why) if why.kind() != io::ErrorKind::BrokenPipe => Err(why.into()),
        _ => Ok(()),
    }
}
