//! The command: measures, prints the tables and draws the plot.
use bench::options::{self, Command, Options};
use bench::{page, plot, rounds, table};
use std::error::Error;
use std::io::{self, Write};
use std::path::Path;
use std::process::ExitCode;
use std::{env, fs};

/// The page and its plot, side by side in one folder.
const PAGE: &str = "PERFORMANCE.md";
const PLOT: &str = "performance.svg";

/// Prints, unless nobody reads any more.
fn say(text: &str) -> Result<(), String> {
    io::stdout().write_all(text.as_bytes()).map_err(|why| format!("nothing could be printed: {why}"))
}

fn write(file: &Path, text: &str) -> Result<(), String> {
    fs::write(file, text).map_err(|why| format!("{} could not be written: {why}", file.display()))
}

/// Measures every degree and size in turn, and says on the error output which it is at.
fn measure(options: &Options) -> Result<(), Box<dyn Error>> {
    let mut outcomes = Vec::new();
    for degree in &options.degrees {
        for size in &options.sizes {
            eprintln!("measuring: degree {degree}, {} entries", table::thousands(*size));
            outcomes.extend(rounds::run(*degree, *size, &options.plan)?);
        }
    }
    say(&page::text(&outcomes, options))?;
    let plot = plot::draw(&outcomes, options.plan.rounds);
    if let Some(file) = &options.svg {
        write(file, &plot)?;
    }
    if let Some(folder) = &options.docs {
        write(&folder.join(PLOT), &plot)?;
        write(&folder.join(PAGE), &page::document(&outcomes, options, PLOT))?;
    }
    Ok(())
}

fn run() -> Result<(), Box<dyn Error>> {
    let words = env::args_os().skip(1).map(|word| word.into_string());
    let words: Vec<String> = words.collect::<Result<_, _>>().map_err(|_| "an argument is not text")?;
    match options::parse(&words)? {
        Command::Help => Ok(say(&format!("{}\n", options::USAGE))?),
        Command::Measure(options) => measure(&options),
        Command::Once(once) => {
            let done = once.run()?;
            let (operations, nanoseconds, sum) = (done.operations, done.nanoseconds(), done.sum);
            Ok(say(&format!("{operations} operations, {nanoseconds:.1} ns each, sum {sum:x}\n"))?)
        }
    }
}

fn main() -> ExitCode {
    match run() {
        Ok(()) => ExitCode::SUCCESS,
        Err(why) => {
            eprintln!("bench: {why}");
            ExitCode::FAILURE
        }
    }
}
