//! The stored answers: made anew they are the same, and the driver gives each back as it is.
use oracle::{DEGREES, answers, drive};
use std::fs;

const FOLDER: &str = concat!(env!("CARGO_MANIFEST_DIR"), "/../../crates/replay/data/");

fn stored(name: &str) -> String {
    fs::read_to_string(FOLDER.to_string() + name).unwrap()
}

#[test]
fn made_anew_they_are_the_same() {
    let mut names: Vec<String> = Vec::new();
    for (name, text) in answers::files(1) {
        assert!(text == stored(&name), "{name}");
        names.push(name);
    }
    let mut there: Vec<String> =
        fs::read_dir(FOLDER).unwrap().map(|file| file.unwrap().file_name().into_string().unwrap()).collect();
    there.sort();
    assert_eq!(there, names);
}

#[test]
fn another_seed_makes_others() {
    assert!(answers::files(2).iter().all(|(name, text)| *text != stored(name)));
}

#[test]
fn the_driver_answers_them_alike() {
    for degree in DEGREES {
        for name in [format!("degree_{degree:02}"), format!("grows_{degree:02}")] {
            let mut driven = Vec::new();
            drive::drive(stored(&name).as_bytes(), &mut driven).unwrap();
            assert!(driven == stored(&name).as_bytes(), "{name}");
        }
    }
}

/// Whether a file has a line that begins and ends like this.
fn has(name: &str, begin: &str, end: &str) -> bool {
    stored(name).lines().any(|line| line.starts_with(begin) && line.ends_with(end))
}

#[test]
fn the_growing_ones_only_make_editions_and_have_every_refusal() {
    for degree in DEGREES {
        let name = format!("grows_{degree:02}");
        assert!(!has(&name, "r ", "") && !has(&name, "d ", ""), "{name}");
        for number in 5..=9 {
            assert!(has(&name, "i ", &format!("= {number:x} 0 0 0")) == (number != 6), "{name}: insert, {number}");
            assert!(has(&name, "c ", &format!("= {number:x} 0 0 0")), "{name}: change, {number}");
        }
    }
}

#[test]
fn the_driver_says_what_it_cannot_read() {
    for (text, said) in [
        ("x 1", "line 1: no such call"),
        ("n\ni 0 1", "line 2: no such call, or another number of arguments"),
        ("g 0 1 1g", "line 1: 1g is no hexadecimal number"),
        ("insert 0 1 1 1", "line 1: a call is one letter"),
    ] {
        let why = drive::drive(text.as_bytes(), &mut Vec::new()).unwrap_err().to_string();
        assert!(why.starts_with(said), "{why}");
    }
}

#[test]
fn a_call_before_any_format_is_refused() {
    let mut driven = Vec::new();
    drive::drive("f 3 1 1 1\nf 10 0 1 1\nn\ng 0 1 1\n".as_bytes(), &mut driven).unwrap();
    let lines = String::from_utf8(driven).unwrap();
    assert_eq!(lines, "f 3 1 1 1 = 1 0 0 0\nf 10 0 1 1 = 2 0 0 0\nn = 4 0 0 0\ng 0 1 1 = 4 0 0 0\n");
}
