//! The command `shelf`: the library's `run` on the process's arguments and streams.
use shelf_command::{Streams, run};
use std::env;
use std::io::{self, BufWriter, IsTerminal};
use std::process::ExitCode;

fn main() -> ExitCode {
    let args: Vec<_> = env::args_os().skip(1).collect();
    let mut streams = Streams {
        input: &mut io::stdin().lock(),
        out: &mut BufWriter::new(io::stdout().lock()),
        err: &mut io::stderr().lock(),
        err_is_terminal: io::stderr().is_terminal(),
    };
    ExitCode::from(run(&args, &mut streams))
}
