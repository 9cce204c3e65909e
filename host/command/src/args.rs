//! Reads a command line against what a command takes.
use crate::commands::Command;
use crate::failure::{Failure, quoted};
use crate::numbers;
use std::ffi::{OsStr, OsString};
use std::path::Path;

/// An option of a command. Where it takes a value, that is a number.
pub struct Opt {
    /// Its name, with the dashes.
    pub name: &'static str,
    /// Whether a number follows.
    pub takes_number: bool,
    /// What it is for.
    pub brief: &'static str,
}

impl Opt {
    /// An option that a number follows.
    pub const fn number(name: &'static str, brief: &'static str) -> Opt {
        Opt { name, takes_number: true, brief }
    }

    /// An option by itself.
    pub const fn flag(name: &'static str, brief: &'static str) -> Opt {
        Opt { name, takes_number: false, brief }
    }
}

/// Options that every command has.
pub const COMMON: [Opt; 2] =
    [Opt::flag("--json", "answer by one JSON object, refusals too"), Opt::flag("--help", "this text")];

/// Whether one of these options is on a command line.
pub fn asks(args: &[OsString], names: &[&str]) -> bool {
    args.iter().take_while(|word| *word != "--").any(|word| names.iter().any(|name| word == name))
}

/// A command line that was understood.
pub struct Call<'a> {
    command: &'a Command,
    operands: Vec<&'a OsStr>,
    options: Vec<(&'static str, u64)>,
}

impl<'a> Call<'a> {
    /// Reads the words behind the command's name.
    pub fn read(command: &'a Command, args: &'a [OsString]) -> Result<Call<'a>, Failure> {
        let mut call = Call { command, operands: Vec::new(), options: Vec::new() };
        let mut words = args.iter();
        while let Some(word) = words.next() {
            if word == "--" {
                call.operands.extend(words.by_ref().map(OsString::as_os_str));
            } else if word.as_encoded_bytes().starts_with(b"-") && word != "-" {
                call.option_word(word, || words.next())?;
            } else {
                call.operands.push(word);
            }
        }
        let wanted = command.operands;
        if let Some(missing) = wanted.get(call.operands.len()) {
            return Err(call.usage(format!("{missing} is missing")));
        }
        match call.operands.get(wanted.len()) {
            Some(extra) => Err(call.usage(format!("{} is too much", quoted(&extra.to_string_lossy())))),
            None => Ok(call),
        }
    }

    /// Takes an option in, with the number that follows it or stands behind `=`.
    fn option_word(&mut self, word: &OsStr, next: impl FnOnce() -> Option<&'a OsString>) -> Result<(), Failure> {
        let word = word.to_string_lossy();
        let (name, behind) = match word.split_once('=') {
            Some((name, behind)) => (name, Some(behind.to_string())),
            None => (word.as_ref(), None),
        };
        let Some(option) = self.command.options.iter().chain(&COMMON).find(|option| option.name == name) else {
            return Err(self.usage(format!("{} is no option of it", quoted(name))));
        };
        if self.option(option.name).is_some() {
            return Err(self.usage(format!("{name} is there twice")));
        }
        let number = match (option.takes_number, behind) {
            (false, None) => 1,
            (false, Some(_)) => return Err(self.usage(format!("{name} takes no number"))),
            (true, behind) => {
                let behind = behind.or_else(|| next().map(|word| word.to_string_lossy().into_owned()));
                let text = behind.ok_or_else(|| self.usage(format!("a number is missing behind {name}")))?;
                numbers::parse(&text).map_err(|wrong| self.usage(format!("{name}: {wrong}")))?
            }
        };
        self.options.push((option.name, number));
        Ok(())
    }

    /// The number behind an option, or 1 for an option by itself, if it is there.
    pub fn option(&self, name: &str) -> Option<u64> {
        self.options.iter().find(|option| option.0 == name).map(|option| option.1)
    }

    /// The number behind an option that must be there.
    pub fn required(&self, name: &str) -> Result<u64, Failure> {
        self.option(name).ok_or_else(|| self.usage(format!("{name} is missing")))
    }

    /// An operand, by the name that the command gives it.
    pub fn operand(&self, name: &str) -> &'a OsStr {
        let at = self.command.operands.iter().position(|operand| *operand == name);
        at.and_then(|at| self.operands.get(at)).copied().unwrap_or_default()
    }

    /// The file that a command is about.
    pub fn file(&self) -> &'a Path {
        Path::new(self.operand("FILE"))
    }

    /// An operand that is a number.
    pub fn number(&self, name: &str) -> Result<u64, Failure> {
        let text = self.operand(name).to_string_lossy();
        numbers::parse(&text).map_err(|wrong| self.usage(format!("{name}: {wrong}")))
    }

    /// A failure of the command line, with the command that it was meant for.
    pub fn usage(&self, wrong: String) -> Failure {
        let name = self.command.name;
        Failure::Usage(format!("{name}: {wrong} (`shelf {name} --help` says what it takes)"))
    }
}
