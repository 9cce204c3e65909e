//! The command `show`: an edition drawn as a tree.
use super::{Command, edition, looked_at};
use crate::Streams;
use crate::answer::{Answer, Outcome};
use crate::args::{Call, Opt};
use crate::failure::Failure;
use crate::json::Json;
use crate::numbers::{counted, grouped};
use crate::tree::{Node, Row, Tree};
use shelf::{Edition, Refusal};
use std::io::{self, Write};

pub const SHOW: Command = Command {
    name: "show",
    operands: &["FILE", "EDITION"],
    options: &[Opt::number("--lines", "how many lines of the tree at most: 200 if it is not given")],
    brief: "draws an edition as a tree",
    help: "Draws an edition as a tree. A branch is a dot with its depth and its children below it, each behind\n\
           its segment of the hash; branches with one child each, which is a branch again, are one line with\n\
           the segments that lead through them. An entry is its hash, key and value; a chain is the entries of\n\
           one hash, the front first. The cell of each is in brackets: two editions share the cells that stand\n\
           in both.\n\
           \n\
           Where words are wrong the drawing says `damaged here`, and the exit status is 4. What it looks at is\n\
           less than what check looks at.",
    examples: &["day.arena 3", "day.arena 3 --lines 1000"],
    run: show,
};

/// Lines of a drawing, if the command line does not say.
const LINES: u64 = 200;

/// An edition and its tree.
struct Drawing {
    edition: Edition,
    degree: u64,
    size: u64,
    tree: Tree,
    /// Rows that no sound edition has more of.
    most: u64,
}

fn show(call: &Call<'_>, _: &mut Streams<'_>) -> Outcome {
    let edition = edition(call)?;
    let arena = looked_at(call)?;
    let sizes = arena.sizes()?;
    let size = arena.size(edition)?;
    // However many lines are asked for, a row for each cell and for each chain is enough.
    let most = sizes.branches + 2 * sizes.entries;
    let lines = call.option("--lines").unwrap_or(LINES).min(most);
    let tree = Tree::read(arena.words(), sizes, edition.number(), lines);
    Ok(Box::new(Drawing { edition, degree: sizes.degree, size, tree, most }))
}

impl Drawing {
    fn left_out(&self) -> u64 {
        self.size.saturating_sub(self.tree.entries)
    }
}

impl Answer for Drawing {
    fn text(&self, out: &mut dyn Write) -> io::Result<()> {
        writeln!(out, "{}: {}, degree {}", self.edition, counted(self.size, "entry", "entries"), self.degree)?;
        if !self.tree.rows.is_empty() {
            writeln!(out)?;
        }
        self.tree.rows.iter().try_for_each(|row| writeln!(out, "{}", line(row)))?;
        if self.tree.cut {
            let lines = counted(self.tree.rows.len() as u64, "line", "lines");
            writeln!(
                out,
                "\n{} of {} entries are left out after {lines}",
                grouped(self.left_out()),
                grouped(self.size)
            )?;
        }
        Ok(())
    }

    fn json(&self, json: &mut Json<'_>) -> io::Result<()> {
        json.field("edition", self.edition.number())?;
        json.field("degree", self.degree)?;
        json.field("size", self.size)?;
        json.name("rows")?
            .list(|json| self.tree.rows.iter().try_for_each(|row| json.object(|json| fields(json, row))))?;
        json.field("cut", self.tree.cut)?;
        json.field("left_out", self.left_out())
    }

    fn fault(&self) -> Option<Failure> {
        let places = self.tree.rows.iter().filter(|row| matches!(row.node, Node::Damaged(_))).count() as u64;
        let because = if places > 0 {
            format!("the drawing has {} where words are wrong", counted(places, "place", "places"))
        } else if self.tree.rows.len() as u64 == self.most && self.tree.cut {
            "the tree has more rows than the arena has cells for".into()
        } else if self.tree.entries > self.size || (self.tree.entries < self.size && !self.tree.cut) {
            let [size, entries] = [self.size, self.tree.entries].map(grouped);
            format!("the edition says it has {size} entries, but the tree has {entries}")
        } else {
            return None;
        };
        Some(Failure::refused(Refusal::Damaged, because))
    }
}

fn line(row: &Row) -> String {
    let segment = row.segment.map(|segment| format!("{segment}  ")).unwrap_or_default();
    let node = match &row.node {
        Node::Branch { cell, depth, by } if by.is_empty() => format!("• depth {depth}  [branch {cell}]"),
        Node::Branch { cell, depth, by } => {
            let by: Vec<String> = by.iter().map(u64::to_string).collect();
            format!("• depths {} to {depth}, by {}  [branch {cell}]", row.depth, by.join(" "))
        }
        Node::Entry { cell, entry } => {
            format!("hash {:#x}, key {:#x}, value {}  [entry {cell}]", entry.hash, entry.key, entry.value)
        }
        Node::Chain(length) => format!("chain of {}", grouped(*length)),
        Node::Damaged(wrong) => format!("damaged here: {wrong}"),
    };
    format!("{}{segment}{node}", row.stem)
}

fn fields(json: &mut Json<'_>, row: &Row) -> io::Result<()> {
    json.field("depth", row.depth)?;
    if let Some(segment) = row.segment {
        json.field("segment", segment)?;
    }
    match &row.node {
        Node::Branch { cell, by, .. } => {
            json.field("branch", *cell)?;
            json.name("by")?.list(|json| by.iter().try_for_each(|segment| json.value(*segment)))
        }
        Node::Entry { cell, entry } => {
            json.field("entry", *cell)?;
            json.field("hash", entry.hash)?;
            json.field("key", entry.key)?;
            json.field("value", entry.value)
        }
        Node::Chain(length) => json.field("chain", *length),
        Node::Damaged(wrong) => json.field("damaged", wrong.as_str()),
    }
}
