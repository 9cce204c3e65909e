//! Calls and answers as lines of text: the format of the stored answers, which the README beside this workspace describes.
use crate::calls::{Answer, Call, Entry};
use std::fmt::Write;

/// The line of a call: its letter and its arguments.
pub fn call_line(call: &Call) -> String {
    let (letter, arguments) = match *call {
        Call::Format { degree, branches, entries, editions } => ('f', vec![degree, branches, entries, editions]),
        Call::NewEdition => ('n', vec![]),
        Call::Share { edition } => ('s', vec![edition]),
        Call::Size { edition } => ('z', vec![edition]),
        Call::InUse => ('u', vec![]),
        Call::Get { edition, hash, key } => ('g', vec![edition, hash, key]),
        Call::List { edition, place, room } => ('l', vec![edition, place, room]),
        Call::Equal { first, second } => ('e', vec![first, second]),
        Call::Insert { edition, entry } => ('i', vec![edition, entry.hash, entry.key, entry.value]),
        Call::Change { edition, entry } => ('c', vec![edition, entry.hash, entry.key, entry.value]),
        Call::Remove { edition, hash, key } => ('r', vec![edition, hash, key]),
        Call::Drop { edition } => ('d', vec![edition]),
    };
    arguments.iter().fold(letter.to_string(), |mut line, argument| {
        let _ = write!(line, " {argument:x}");
        line
    })
}

/// The lines of a call and its answer, each ended.
pub fn answered(call: &Call, answer: &Answer) -> String {
    let [a, b, c] = answer.values;
    let mut lines = format!("{} = {:x} {a:x} {b:x} {c:x}\n", call_line(call), answer.number);
    for entry in &answer.listed {
        let _ = writeln!(lines, "+ {:x} {:x} {:x}", entry.hash, entry.key, entry.value);
    }
    lines
}

/// What a line is.
#[derive(Debug, PartialEq, Eq)]
pub enum Line {
    /// A call; an answer that stands behind it is passed over.
    Call(Call),
    /// An entry that a listing wrote.
    Listed,
    /// The last line: how many calls stand above.
    Total(u64),
    /// A comment, or nothing.
    Comment,
}

/// Reads a line, or says why it cannot.
pub fn read_line(line: &str) -> Result<Line, String> {
    let call = line.split('=').next().unwrap_or_default().trim();
    let (letter, rest) = call.split_at(call.chars().next().map_or(0, char::len_utf8));
    if letter.is_empty() || letter == "#" {
        return Ok(Line::Comment);
    }
    if !(rest.is_empty() || rest.starts_with(' ')) {
        return Err(format!("a call is one letter: {line}"));
    }
    let number =
        |word: &str| u64::from_str_radix(word, 16).map_err(|_| format!("{word} is no hexadecimal number: {line}"));
    let numbers: Vec<u64> = rest.split_whitespace().map(number).collect::<Result<_, _>>()?;
    let call = match (letter, numbers.as_slice()) {
        ("f", &[degree, branches, entries, editions]) => Call::Format { degree, branches, entries, editions },
        ("n", &[]) => Call::NewEdition,
        ("s", &[edition]) => Call::Share { edition },
        ("z", &[edition]) => Call::Size { edition },
        ("u", &[]) => Call::InUse,
        ("g", &[edition, hash, key]) => Call::Get { edition, hash, key },
        ("l", &[edition, place, room]) => Call::List { edition, place, room },
        ("e", &[first, second]) => Call::Equal { first, second },
        ("i", &[edition, hash, key, value]) => Call::Insert { edition, entry: Entry { hash, key, value } },
        ("c", &[edition, hash, key, value]) => Call::Change { edition, entry: Entry { hash, key, value } },
        ("r", &[edition, hash, key]) => Call::Remove { edition, hash, key },
        ("d", &[edition]) => Call::Drop { edition },
        ("+", &[_, _, _]) => return Ok(Line::Listed),
        ("t", &[total]) => return Ok(Line::Total(total)),
        _ => return Err(format!("no such call, or another number of arguments: {line}")),
    };
    Ok(Line::Call(call))
}
