//! What `--help` says.
use crate::args::COMMON;
use crate::commands::{self, Command};
use crate::failure;
use shelf::Refusal;
use std::fmt::Write;

const ABOUT: &str = "\
shelf: editions of a persistent hash trie in an arena file

usage: shelf COMMAND ARGUMENT... [OPTION...]
";

const NOTES: &str = "
An arena file is the words of an arena, each as 8 bytes, the lowest first, and nothing else.
A changing command locks FILE.lock, which it leaves there, and replaces the file as a whole or not at all;
a refused one changes nothing. Reading commands need no lock.
Numbers are decimal, or hexadecimal after 0x; underscores are allowed.
With --json the answer is one JSON object, whose numbers are 64-bit integers: {\"number\":0,...} if it is done,
{\"number\":6,\"refusal\":\"absent\"} if it is refused, {\"number\":74,\"failure\":\"...\"} for the last three of these.

exit status:
   0  done
";

const EXAMPLES: &str = "
examples:
  shelf format day.arena --branches 1000 --entries 1000 --editions 16
  shelf new day.arena
  shelf insert day.arena 0 0x26 1 10
  shelf list day.arena 1
  shelf COMMAND --help";

/// Help on the command as a whole.
pub fn top() -> String {
    let mut text = format!("{ABOUT}\ncommands:\n");
    let width = commands::ALL.iter().map(|command| usage(command).len()).max().unwrap_or(0);
    // Writing to a string does not fail.
    for command in commands::ALL {
        let _ = writeln!(text, "  {:<width$}  {}", usage(command), command.brief);
    }
    text += NOTES;
    for why in Refusal::ALL {
        let _ = writeln!(text, "  {:>2}  {}", why.number(), why.words());
    }
    let _ = writeln!(text, "  {}  the command line, or a line of triples, is not understood", failure::USAGE);
    let _ = writeln!(text, "  {}  the system fails: a file cannot be read or written", failure::SYSTEM);
    let _ = writeln!(text, "  {}  another command is changing the file: try again", failure::LOCKED);
    text + EXAMPLES
}

/// Help on one command.
pub fn of(command: &Command) -> String {
    let mut text = format!("usage: shelf {} [OPTION...]\n\n{}\n\noptions:\n", usage(command), command.help);
    for option in command.options.iter().chain(&COMMON) {
        let number = if option.takes_number { " N" } else { "" };
        let _ = writeln!(text, "  {:<13} {}", format!("{}{number}", option.name), option.brief);
    }
    text += "\nexamples:";
    for example in command.examples {
        let _ = write!(text, "\n  shelf {} {example}", command.name);
    }
    text
}

fn usage(command: &Command) -> String {
    std::iter::once(&command.name).chain(command.operands).copied().collect::<Vec<_>>().join(" ")
}
