//! How the programs begin and end: options, help, a report, and the exit status.
use crate::options;
use std::io::{self, Write};
use std::process::ExitCode;

/// Runs a program: reads its options, which `usual` names, and hands the numbers to `run`. That answers the report, whose
/// last line a reader looks for, and whether all is well, which the exit status says.
pub fn start<const N: usize>(
    help: &str,
    usual: [(&str, u64); N],
    run: impl FnOnce([u64; N]) -> (String, bool),
) -> ExitCode {
    match options::read(usual) {
        Ok(Some(numbers)) => {
            let (report, is_well) = run(numbers);
            say(&report);
            if is_well { ExitCode::SUCCESS } else { ExitCode::FAILURE }
        }
        Ok(None) => {
            say(help);
            ExitCode::SUCCESS
        }
        Err(why) => {
            let _ = writeln!(io::stderr(), "{why}");
            ExitCode::from(2)
        }
    }
}

/// Writes a line to standard output. Where nobody reads it any more, the exit status still says how the run ended.
pub fn say(line: &str) {
    let _ = writeln!(io::stdout(), "{line}");
}
