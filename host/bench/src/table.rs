//! The outcomes as tables for people: plain text, or Markdown.
use crate::ratios::Outcome;

const COLUMNS: usize = 9;

/// The heads of the columns. The operation and the mark behind the target are words, set to the left, the others to the
/// right.
const HEADS: [&str; COLUMNS] =
    ["entries", "operation", "crate, ns", "library, ns", "ratio", "middle half", "all rounds", "target", ""];

/// Where there is nothing to say.
const NONE: &str = "–";

/// A number with its thousands apart.
pub fn thousands(number: usize) -> String {
    let digits = number.to_string();
    let mut text = String::new();
    for (place, digit) in digits.chars().enumerate() {
        if place > 0 && (digits.len() - place) % 3 == 0 {
            text.push(',');
        }
        text.push(digit);
    }
    text
}

/// Three figures, more or less.
fn nanoseconds(number: f64) -> String {
    if number < 100.0 { format!("{number:.1}") } else { format!("{number:.0}") }
}

fn row(outcome: &Outcome) -> [String; COLUMNS] {
    let or_none = |text: Option<String>| text.unwrap_or_else(|| NONE.to_string());
    let mark = match outcome.met() {
        Some(true) => "met",
        Some(false) => "missed",
        None => "",
    };
    [
        thousands(outcome.size),
        outcome.kind.title().to_string(),
        or_none(outcome.crate_nanoseconds.map(nanoseconds)),
        nanoseconds(outcome.library_nanoseconds),
        or_none(outcome.ratio.map(|ratio| format!("{:.2}", ratio.median))),
        or_none(outcome.ratio.map(|ratio| format!("{:.2}–{:.2}", ratio.lower, ratio.upper))),
        or_none(outcome.ratio.map(|ratio| format!("{:.2}–{:.2}", ratio.lowest, ratio.highest))),
        or_none(outcome.target().map(|target| format!("{target:.1}"))),
        mark.to_string(),
    ]
}

/// Columns as wide as their widest cell, sizes apart by an empty line.
fn plain(rows: &[[String; COLUMNS]]) -> String {
    let heads = HEADS.map(str::to_string);
    let width = |column: usize| rows.iter().chain([&heads]).map(|row| row[column].chars().count()).max().unwrap_or(0);
    let widths: [usize; COLUMNS] = std::array::from_fn(width);
    let line = |row: &[String; COLUMNS]| {
        let cell = |column: usize| match column {
            1 | 8 => format!("{:<1$}", row[column], widths[column]),
            _ => format!("{:>1$}", row[column], widths[column]),
        };
        let cells: Vec<String> = (0..COLUMNS).map(cell).collect();
        cells.join("  ").trim_end().to_string() + "\n"
    };
    let mut text = line(&heads);
    let mut before = None;
    for row in rows {
        if before.replace(&row[0]) != Some(&row[0]) {
            text.push('\n');
        }
        text += &line(row);
    }
    text
}

fn markdown(rows: &[[String; COLUMNS]]) -> String {
    let line = |cells: &[String]| format!("| {} |\n", cells.join(" | ")).replace("  ", " ");
    let mut text = line(&HEADS.map(str::to_string));
    text += "|---:|---|---:|---:|---:|---:|---:|---:|---|\n";
    for row in rows {
        text += &line(row);
    }
    text
}

/// How tables are set.
#[derive(Clone, Copy, Debug, PartialEq, Eq)]
pub enum Form {
    /// For a terminal.
    Plain,
    /// For a page.
    Markdown,
}

/// A table for each degree, under its name.
pub fn tables(outcomes: &[Outcome], degrees: &[u64], form: Form) -> String {
    let table = |degree: &u64| {
        let rows: Vec<_> = outcomes.iter().filter(|outcome| outcome.degree == *degree).map(row).collect();
        match form {
            Form::Plain => format!("degree {degree}\n\n{}\n", plain(&rows)),
            Form::Markdown => format!("## Degree {degree}\n\n{}\n", markdown(&rows)),
        }
    };
    degrees.iter().map(table).collect()
}
