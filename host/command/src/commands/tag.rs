//! The command `tag`: the class and the key of a data element's tag.
use super::Command;
use crate::Streams;
use crate::answer::{Outcome, Said};
use crate::args::Call;
use crate::failure::quoted;
use crate::numbers::hex;
use shelf::{Class, Tag};

pub const TAG: Command = Command {
    name: "tag",
    operands: &["GROUP,ELEMENT"],
    options: &[],
    brief: "says the class and the key of a tag",
    help: "Says what the tag of a data element is: its class, its block and low byte if it has them, and its\n\
           key by rule 1, which is group times 65,536 plus element. Group and element are hexadecimal, of four\n\
           digits at most.",
    examples: &["3005,1042", "'(3005,1042)' --json"],
    run: tag,
};

fn tag(call: &Call<'_>, _: &mut Streams<'_>) -> Outcome {
    let text = call.operand("GROUP,ELEMENT").to_string_lossy();
    let wrong = || call.usage(format!("{} is not a tag, such as 3005,1042 or (3005,1042)", quoted(&text)));
    let tag = parse(&text).ok_or_else(wrong)?;
    let (class, block, low) = match tag.class() {
        Class::Public => ("public", None, None),
        Class::Creator { block } => ("creator", Some(block), None),
        Class::Private { block, low } => ("private", Some(block), Some(low)),
        Class::Unassigned => ("unassigned", None, None),
    };
    let mut said = Said::new(format!("{tag}: {}, key {}", tag.class(), hex(tag.key())))
        .with("group", u64::from(tag.group))
        .with("element", u64::from(tag.element))
        .with("class", class);
    for (name, byte) in [("block", block), ("low", low)] {
        if let Some(byte) = byte {
            said = said.with(name, u64::from(byte));
        }
    }
    said.with("key", tag.key()).done()
}

/// Reads a tag, with or without its brackets.
fn parse(text: &str) -> Option<Tag> {
    let inner = match text.strip_prefix('(') {
        Some(rest) => rest.strip_suffix(')')?,
        None => text,
    };
    let (group, element) = inner.split_once(',')?;
    Some(Tag { group: half(group)?, element: half(element)? })
}

fn half(digits: &str) -> Option<u16> {
    let digits = digits.trim();
    let right = (1..=4).contains(&digits.len()) && digits.chars().all(|c| c.is_ascii_hexdigit());
    if right { u16::from_str_radix(digits, 16).ok() } else { None }
}
