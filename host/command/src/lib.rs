//! The command `shelf` over an arena file, as a function of arguments and streams.
//!
//! An arena file is the words of an arena, each as 8 bytes, the lowest first, and nothing else. Each sub-command is one
//! call of the proved library on it, or a few; its exit status is document 01's number of the answer.

mod answer;
mod args;
mod commands;
mod failure;
mod file;
mod help;
mod json;
mod numbers;
mod table;
mod tree;

use answer::{Answer, Outcome, Said};
use args::{Call, asks};
use failure::Failure;
use json::Json;
use std::ffi::OsString;
use std::io::{self, BufRead, ErrorKind, Write};

/// What a command reads and writes beside its files.
pub struct Streams<'a> {
    /// Standard input.
    pub input: &'a mut dyn BufRead,
    /// Standard output, for answers.
    pub out: &'a mut dyn Write,
    /// Standard error, for sentences about failures and for progress.
    pub err: &'a mut dyn Write,
    /// Whether a person is likely to look at standard error, so that progress is shown there.
    pub err_is_terminal: bool,
}

/// Runs the command with these arguments (the program's name is not among them), and answers its exit status.
pub fn run(args: &[OsString], streams: &mut Streams<'_>) -> u8 {
    let (answer, failure) = match outcome(args, streams) {
        Ok(answer) => {
            let fault = answer.fault();
            (Some(answer), fault)
        }
        Err(failure) => (None, Some(failure)),
    };
    let mut status = failure.as_ref().map_or(0, Failure::status);
    let shown = show(answer.as_deref(), failure.as_ref(), asks(args, &["--json"]), streams.out);
    if let Some(failure) = failure {
        say(streams.err, &failure.sentence());
    }
    match shown {
        // Whoever reads has enough: that is no failure.
        Err(error) if error.kind() == ErrorKind::BrokenPipe => {}
        Err(error) => {
            say(streams.err, &format!("the answer cannot be written: {error} (a change that was made stands)"));
            status = if status == 0 { failure::SYSTEM } else { status };
        }
        Ok(()) => {}
    }
    status
}

/// Finds the command and runs it, or what is said where none is to be run.
fn outcome(args: &[OsString], streams: &mut Streams<'_>) -> Outcome {
    let first = args.first().map(|word| word.to_string_lossy()).unwrap_or_default();
    let rest = args.get(1..).unwrap_or_default();
    if let Some(command) = commands::ALL.iter().find(|command| command.name == first) {
        if asks(rest, &["--help", "-h"]) {
            return Said::plain(help::of(command));
        }
        return (command.run)(&Call::read(command, rest)?, streams);
    }
    match first.as_ref() {
        "--help" | "-h" => Said::plain(help::top()),
        "--version" | "-V" => Said::plain(concat!("shelf ", env!("CARGO_PKG_VERSION")).into()),
        "" => Err(Failure::Usage("a command is missing: `shelf --help` lists them".into())),
        _ => Err(Failure::Usage(format!("{} is no command: `shelf --help` lists them", failure::quoted(&first)))),
    }
}

/// Writes the answer, for people or as one JSON object; a failure without an answer is written here for programs only.
fn show(
    answer: Option<&dyn Answer>,
    failure: Option<&Failure>,
    for_programs: bool,
    out: &mut dyn Write,
) -> io::Result<()> {
    if for_programs {
        Json::new(out).object(|json| {
            json.field("number", u64::from(failure.map_or(0, Failure::status)))?;
            failure.map_or(Ok(()), |failure| failure.json(json))?;
            answer.map_or(Ok(()), |answer| answer.json(json))
        })?;
        writeln!(out)?;
    } else if let Some(answer) = answer {
        answer.text(out)?;
    }
    out.flush()
}

/// Writes a sentence on standard error. Nothing is left to be told if that fails.
fn say(err: &mut dyn Write, sentence: &str) {
    let _ = writeln!(err, "shelf: {sentence}").and_then(|()| err.flush());
}
