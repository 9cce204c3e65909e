//! What the command line asks for.
use crate::kinds::Kind;
use crate::once::{Once, Which};
use crate::rounds::Plan;
use std::path::PathBuf;
use std::time::Duration;

/// What `--help` prints.
pub const USAGE: &str = "\
usage: bench [OPTION]...
       bench once KIND SIDE SIZE DEGREE COUNT

Measures the crate rpds 1.2.1 and the proved library side by side, in one process, on the same keys.

  --sizes 300,10000   editions of so many entries (300,10000,1000000)
  --degrees 16        degrees of the trie (16,64)
  --only get,insert   the kinds whose names start so (all of them)
  --rounds 15         rounds, with the sides in turn (15)
  --quick             three short rounds, at 300 and 10000 entries
  --markdown          prints the tables as Markdown
  --svg FILE          draws the ratios into FILE
  --docs FOLDER       writes both into FOLDER, as PERFORMANCE.md and performance.svg

The kinds: get_hit get_miss insert_kept insert_dropped replace remove list check.

`once` does COUNT operations of one kind on one SIDE, `crate` or `library`; of list and check, COUNT whole ones. What is
measured runs in a function named after side and kind, such as library_get_hit, and nothing else does:

  valgrind --tool=callgrind --toggle-collect='*library_get_hit' bench once get_hit library 10000 16 10000";

/// What is to be done.
#[derive(Clone, Debug, PartialEq, Eq)]
pub enum Command {
    /// Print the usage.
    Help,
    /// Measure.
    Measure(Options),
    /// Do one thing for a counter of instructions.
    Once(Once),
}

/// What is measured, and how it is shown.
#[derive(Clone, Debug, PartialEq, Eq)]
pub struct Options {
    /// Entries of an edition, each a size to measure.
    pub sizes: Vec<usize>,
    /// The degrees.
    pub degrees: Vec<u64>,
    /// The kinds and the rounds.
    pub plan: Plan,
    /// Whether the tables are Markdown.
    pub markdown: bool,
    /// The file for the plot.
    pub svg: Option<PathBuf>,
    /// The folder for the page with its plot.
    pub docs: Option<PathBuf>,
}

const MOST_ENTRIES: u64 = 1_000_000;
const MOST_ROUNDS: u64 = 1_000;

fn number(text: &str, what: &str) -> Result<u64, String> {
    text.parse().map_err(|_| format!("{what} is a number, not `{text}`"))
}

fn number_from(least: u64, most: u64, text: &str, what: &str) -> Result<usize, String> {
    let number = number(text, what)?;
    let wrong = || format!("{what} is from {least} to {most}, not {number}");
    usize::try_from(number).ok().filter(|_| (least..=most).contains(&number)).ok_or_else(wrong)
}

fn size(text: &str) -> Result<usize, String> {
    number_from(4, MOST_ENTRIES, text, "a size")
}

fn degree(text: &str) -> Result<u64, String> {
    let degree = number(text, "a degree")?;
    if oracle::DEGREES.contains(&degree) { Ok(degree) } else { Err(format!("there is no degree {degree}")) }
}

fn kind(text: &str) -> Result<Kind, String> {
    let named = Kind::ALL.into_iter().find(|kind| kind.name() == text);
    named.ok_or_else(|| format!("there is no kind `{text}`"))
}

/// The kinds whose names start with one of the words.
fn kinds(words: &str) -> Result<Vec<Kind>, String> {
    let words: Vec<&str> = words.split(',').collect();
    let starts = |kind: &Kind, word: &str| !word.is_empty() && kind.name().starts_with(word);
    if let Some(word) = words.iter().find(|word| !Kind::ALL.iter().any(|kind| starts(kind, word))) {
        return Err(format!("no kind's name starts with `{word}`"));
    }
    Ok(Kind::ALL.into_iter().filter(|kind| words.iter().any(|word| starts(kind, word))).collect())
}

/// What stands between the commas; what stands there twice is taken once.
fn list<T: PartialEq>(text: &str, one: impl Fn(&str) -> Result<T, String>) -> Result<Vec<T>, String> {
    let mut list = Vec::new();
    for thing in text.split(',').map(one) {
        let thing = thing?;
        if !list.contains(&thing) {
            list.push(thing);
        }
    }
    Ok(list)
}

fn once(words: &[String]) -> Result<Command, String> {
    let [kind_name, side, size_text, degree_text, count] = words else {
        return Err("`once` takes a kind, a side, a size, a degree and a count".to_string());
    };
    Ok(Command::Once(Once {
        kind: kind(kind_name)?,
        side: Which::from_name(side).ok_or_else(|| format!("a side is crate or library, not `{side}`"))?,
        size: size(size_text)?,
        degree: degree(degree_text)?,
        count: number_from(1, u64::from(u32::MAX), count, "a count")?,
    }))
}

impl Options {
    /// Everything; or, where it has to be quick, enough to see whether all is well.
    fn all(quick: bool) -> Options {
        let kinds = Kind::ALL.to_vec();
        let (sizes, rounds, least) =
            if quick { (vec![300, 10_000], 3, 2) } else { (vec![300, 10_000, 1_000_000], 15, 25) };
        let plan = Plan { kinds, rounds, least: Duration::from_millis(least) };
        Options { sizes, degrees: vec![16, 64], plan, markdown: false, svg: None, docs: None }
    }

    /// The options that say which part of everything is measured.
    pub fn part(&self) -> String {
        let quick = self.plan.least < Options::all(false).plan.least;
        let all = Options::all(quick);
        let mut part = if quick { " --quick".to_string() } else { String::new() };
        if self.sizes != all.sizes {
            part += &format!(" --sizes {}", joined(&self.sizes, usize::to_string));
        }
        if self.degrees != all.degrees {
            part += &format!(" --degrees {}", joined(&self.degrees, u64::to_string));
        }
        if self.plan.kinds != all.plan.kinds {
            part += &format!(" --only {}", joined(&self.plan.kinds, |kind| kind.name().to_string()));
        }
        if self.plan.rounds != all.plan.rounds {
            part += &format!(" --rounds {}", self.plan.rounds);
        }
        part
    }
}

fn joined<T>(things: &[T], text: impl Fn(&T) -> String) -> String {
    things.iter().map(text).collect::<Vec<_>>().join(",")
}

/// Reads the arguments behind the program's name.
pub fn parse(arguments: &[String]) -> Result<Command, String> {
    if let Some(("once", words)) = arguments.split_first().map(|(first, rest)| (first.as_str(), rest)) {
        return once(words);
    }
    let mut options = Options::all(arguments.iter().any(|argument| argument == "--quick"));
    let mut words = arguments.iter();
    while let Some(word) = words.next() {
        let mut value = || words.next().map(String::as_str).ok_or_else(|| format!("something has to follow {word}"));
        match word.as_str() {
            "--help" | "-h" => return Ok(Command::Help),
            "--quick" => (),
            "--markdown" => options.markdown = true,
            "--sizes" => options.sizes = list(value()?, size)?,
            "--degrees" => options.degrees = list(value()?, degree)?,
            "--rounds" => options.plan.rounds = number_from(1, MOST_ROUNDS, value()?, "the number of rounds")?,
            "--only" => options.plan.kinds = kinds(value()?)?,
            "--svg" => options.svg = Some(PathBuf::from(value()?)),
            "--docs" => options.docs = Some(PathBuf::from(value()?)),
            _ => return Err(format!("`{word}` is not an option; --help says what there is")),
        }
    }
    Ok(Command::Measure(options))
}
