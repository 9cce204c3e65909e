//! The command: the comparison, the stored answers, the differences, and the driver.
use oracle::compare::{Difference, Tally, compare};
use oracle::exhaust::exhaust;
use oracle::{DEGREES, answers, differences, drive};
use std::io::{self, BufWriter};
use std::path::Path;
use std::process::ExitCode;
use std::sync::OnceLock;
use std::sync::atomic::{AtomicUsize, Ordering::Relaxed};
use std::time::Instant;
use std::{env, fs, thread};

const USAGE: &str = "\
usage: oracle COMMAND

  all [SEED]                 compare, then answers
  compare [UPDATES] [SEED]   calls on the crate and on document 01's trie: every short sequence of updates, and random ones,
                             so many updates at each degree
  answers [SEED] [FOLDER]    writes the stored answers, by default where the program `replay` reads them
  differences                runs the crate where it differs on purpose, on the smallest inputs
  drive                      answers the calls on standard input

UPDATES is 200000, SEED 1. oracle/README.md says how calls are written.";

/// Where the stored answers lie.
const FOLDER: &str = concat!(env!("CARGO_MANIFEST_DIR"), "/../../crates/replay/data");

/// How long the sequences are of which none is left out.
const SHORT: u32 = 6;
const UPDATES: u64 = 200_000;
const SEED: u64 = 1;

/// Runs something at every degree, as many at a time as there are cores.
fn at_every_degree(run: impl Fn(u64) -> Result<Tally, Difference> + Sync) -> Result<Vec<Tally>, String> {
    let threads = thread::available_parallelism().map_or(1, usize::from);
    let next = AtomicUsize::new(0);
    let outcomes: [OnceLock<Result<Tally, Difference>>; DEGREES.len()] = Default::default();
    thread::scope(|scope| {
        for _ in 0..threads {
            scope.spawn(|| {
                while let Some(at) = Some(next.fetch_add(1, Relaxed)).filter(|at| *at < DEGREES.len()) {
                    let _ = outcomes[at].set(run(DEGREES[at]));
                }
            });
        }
    });
    let outcomes = outcomes.into_iter().map(|outcome| outcome.into_inner().expect("every degree was run"));
    let said = |difference| format!("{difference}\ncompare: 1 difference");
    outcomes.collect::<Result<_, _>>().map_err(said)
}

/// Compares at every degree: all short sequences, and random long ones.
fn compare_all(updates: u64, seed: u64) -> Result<(), String> {
    let began = Instant::now();
    let short = at_every_degree(|degree| exhaust(degree, SHORT))?.iter().map(Tally::updates).sum::<u64>();
    println!("every sequence of up to {SHORT} updates over 4 keys, at each degree: {short} updates");
    let tallies = at_every_degree(|degree| compare(degree, updates, seed))?;
    for (degree, tally) in DEGREES.iter().zip(&tallies) {
        println!("degree {degree}: {tally}");
    }
    let compared = tallies.iter().map(Tally::updates).sum::<u64>() + short;
    println!("compare: {compared} updates, 0 differences ({} s)", began.elapsed().as_secs());
    Ok(())
}

/// Writes the stored answers and says whether they are the ones that were there.
fn write_answers(seed: u64, folder: &Path) -> Result<(), String> {
    let said = |what: io::Error| format!("{}: {what}", folder.display());
    fs::create_dir_all(folder).map_err(said)?;
    let files = answers::files(seed);
    let mut new = 0;
    for (name, text) in &files {
        let path = folder.join(name);
        new += u64::from(fs::read(&path).map_or(true, |stored| stored != text.as_bytes()));
        fs::write(&path, text).map_err(said)?;
    }
    let said = if new == 0 { "byte for byte as they were".to_string() } else { format!("{new} of them new") };
    println!("answers: {} files, {said}", files.len());
    Ok(())
}

fn run(words: &[&str]) -> Result<(), String> {
    let number = |word: Option<&&str>, usual: u64| match word {
        None => Ok(usual),
        Some(word) => word.parse().map_err(|_| format!("{word} is no number\n{USAGE}")),
    };
    match words {
        ["all", rest @ ..] if rest.len() <= 1 => {
            let seed = number(rest.first(), SEED)?;
            compare_all(UPDATES, seed)?;
            write_answers(seed, Path::new(FOLDER))
        }
        ["compare", rest @ ..] if rest.len() <= 2 => {
            compare_all(number(rest.first(), UPDATES)?, number(rest.get(1), SEED)?)
        }
        ["answers", rest @ ..] if rest.len() <= 2 => {
            write_answers(number(rest.first(), SEED)?, Path::new(rest.get(1).unwrap_or(&FOLDER)))
        }
        ["differences"] => {
            println!("{}", differences::show().map_err(|what| what.to_string())?);
            Ok(())
        }
        ["drive"] => {
            drive::drive(io::stdin().lock(), &mut BufWriter::new(io::stdout().lock())).map_err(|what| what.to_string())
        }
        [differences::ENDLESS] => {
            differences::endless();
            Ok(())
        }
        _ => Err(USAGE.to_string()),
    }
}

fn main() -> ExitCode {
    let words: Vec<String> = env::args().skip(1).collect();
    let words: Vec<&str> = words.iter().map(String::as_str).collect();
    match run(&words) {
        Ok(()) => ExitCode::SUCCESS,
        Err(what) => {
            eprintln!("{what}");
            ExitCode::FAILURE
        }
    }
}
