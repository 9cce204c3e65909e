//! One set of calls, written down three times: the exports of the proved crate, the C header and the wrapper's
//! declarations. A linker compares names alone, so the parameters are compared here, as text in one form.
use shelf::{Refusal, Sizes};
use std::fs;

const HEADER: &str = include_str!("../../../include/shelf.h");
const WRAPPER: &str = include_str!("../src/raw.rs");

/// Where the proved crate exports the calls.
const EXPORTS: &str = concat!(env!("CARGO_MANIFEST_DIR"), "/../../crates/shelf_c/src/lib.rt");

/// The calls in the order of the three files.
const CALLS: [&str; 15] = [
    "shelf_format",
    "shelf_check",
    "shelf_new_edition",
    "shelf_share",
    "shelf_size",
    "shelf_in_use",
    "shelf_get",
    "shelf_list",
    "shelf_equal",
    "shelf_insert",
    "shelf_change",
    "shelf_remove",
    "shelf_drop",
    "shelf_tag_class",
    "shelf_key_1",
];

/// A call in the one form: its name, and its parameters as Rust declares them.
#[derive(Debug, PartialEq)]
struct Call {
    name: String,
    parameters: Vec<String>,
}

/// The calls of a text in which a word opens each declaration.
fn calls(text: &str, opening: &str, parameter: fn(&str) -> Vec<String>) -> Vec<Call> {
    let text = text.split_whitespace().collect::<Vec<_>>().join(" ");
    let call = |declaration: &str| {
        let (name, rest) = declaration.split_once('(').filter(|(name, _)| name.starts_with("shelf_"))?;
        let (parameters, _) = rest.split_once(')')?;
        // A formatter may give each parameter a line of its own, and the last of them a comma.
        let parameters = parameters.split(',').map(str::trim).filter(|text| !text.is_empty());
        Some(Call { name: name.to_string(), parameters: parameters.flat_map(parameter).collect() })
    };
    text.split(opening).skip(1).filter_map(call).collect()
}

/// `uint64_t *arena` in C is `arena: *mut u64` in Rust.
fn from_c(parameter: &str) -> Vec<String> {
    let (kind, name) = parameter.rsplit_once(' ').expect("a type and a name");
    let kind = match kind {
        "uint64_t" if name.starts_with('*') => "*mut u64",
        "const uint64_t" if name.starts_with('*') => "*const u64",
        "uint64_t" => "u64",
        "uint16_t" => "u16",
        "size_t" => "usize",
        other => other,
    };
    vec![format!("{}: {kind}", name.trim_start_matches('*'))]
}

/// A slice in Rattle is a pointer and a length.
fn from_rattle(parameter: &str) -> Vec<String> {
    let (name, kind) = parameter.split_once(": ").expect("a name and a type");
    let length = if name == "arena" { "words".to_string() } else { format!("{name}_words") };
    let pointer = match kind {
        "&[u64]" => "*const u64",
        "&mut [u64]" => "*mut u64",
        _ => return vec![parameter.to_string()],
    };
    vec![format!("{name}: {pointer}"), format!("{length}: usize")]
}

fn from_rust(parameter: &str) -> Vec<String> {
    vec![parameter.to_string()]
}

fn in_header() -> Vec<Call> {
    calls(HEADER, "shelf_answer ", from_c)
}

#[test]
fn the_header_declares_the_calls_in_order() {
    let names: Vec<String> = in_header().into_iter().map(|call| call.name).collect();
    assert_eq!(names, CALLS);
}

#[test]
fn the_header_declares_what_the_proved_crate_exports() {
    let exports = fs::read_to_string(EXPORTS).unwrap_or_else(|why| panic!("{EXPORTS}: {why}"));
    assert_eq!(in_header(), calls(&exports, "pub extern \"C\" fn ", from_rattle));
}

#[test]
fn the_wrapper_declares_what_the_header_does() {
    assert_eq!(in_header(), calls(WRAPPER, " fn ", from_rust));
}

#[test]
fn the_header_has_the_numbers_and_words_of_the_refusals() {
    assert!(HEADER.contains("SHELF_DONE = 0,"));
    for refusal in Refusal::ALL {
        let name = refusal.words().to_uppercase().replace(' ', "_");
        let line = format!("SHELF_{name} = {}", refusal.number());
        assert!(HEADER.split([',', '\n', '/']).any(|part| part.trim() == line), "{line}");
    }
}

#[test]
fn the_header_has_the_limits_of_the_wrapper() {
    let limits = [
        ("MOST_BRANCHES", Sizes::MOST_BRANCHES),
        ("MOST_ENTRIES", Sizes::MOST_ENTRIES),
        ("MOST_EDITIONS", Sizes::MOST_EDITIONS),
        ("SLOT_WORDS", Sizes::SLOT_WORDS),
        ("ENTRY_WORDS", Sizes::ENTRY_WORDS),
    ];
    for (name, number) in limits {
        let line = format!("#define SHELF_{name} {number}");
        assert!(HEADER.lines().any(|text| text == line), "{line}");
    }
}
