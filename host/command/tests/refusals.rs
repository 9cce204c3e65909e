//! Refusals and usage errors: the exit status, a sentence, and no file changed.
mod common;
use common::Folder;

const SIZES: &str = "--branches 22 --entries 6 --editions 6";

#[test]
fn every_refusal_has_its_number() {
    let folder = Folder::with_shelf(SIZES);
    folder.fails("format @b --degree 3 --branches 1 --entries 1 --editions 1", 1, "bad degree (1)");
    folder.fails("format @b --branches 0 --entries 1 --editions 1", 2, "bad sizes (2)");
    folder.fails("format @b --branches 1 --entries 4194305 --editions 1", 2, "1 to 4,194,304 entry cells");
    for line in ["get @a 6 0 0", "insert @a 0xffffffffffffffff 0 0 0", "drop @a 6", "share @a 6", "list @a 6"] {
        folder.fails(line, 5, "no such edition (5)");
    }
    folder.fails("equal @a 0 6", 5, "no such edition (5)");
    folder.fails("show @a 6", 5, "no such edition (5)");
    folder.fails("get @a 5 0x26 2", 6, "absent (6)");
    folder.fails("change @a 5 0x26 2 0", 6, "absent (6)");
    folder.fails("remove @a 0 0x26 1", 6, "absent (6)");
    for line in ["new @a", "share @a 0", "insert @a 0 0 0 0", "remove @a 5 0x26 1"] {
        folder.fails(line, 7, "no slot (7)");
    }
    folder.fails("list @a 5 --from 6", 11, "beyond the end (11)");
    folder.fails("list @a 5 --count 0", 10, "output too short (10)");
    folder.done("drop @a 0");
    folder.fails("insert @a 5 0x7000000000000008 6 60", 8, "no branch cells (8)");
    folder.done("drop @a 1");
    folder.done("insert @a 4 0x3 7 70");
    folder.fails("insert @a 4 0x4 8 80", 9, "no entry cells (9)");
    assert_eq!(folder.done("check @a"), "sound\n");
}

#[test]
fn refusals_for_programs() {
    let folder = Folder::with_shelf(SIZES);
    assert_eq!(folder.fails("get @a 5 0 0 --json", 6, "absent").out, "{\"number\":6,\"refusal\":\"absent\"}\n");
    assert_eq!(folder.fails("new @a --json", 7, "no slot").out, "{\"number\":7,\"refusal\":\"no slot\"}\n");
    let out = folder.fails("get --json @a 5 \"\\ 0", 64, "HASH").out;
    assert!(out.starts_with(r#"{"number":64,"failure":"get: HASH: `\\\"\\\\` is not a number"#), "{out}");
    let out = folder.fails("get @none 5 0 0 --json", 74, "cannot be read").out;
    assert!(out.starts_with("{\"number\":74,\"failure\":"), "{out}");
}

#[test]
fn wrong_command_lines() {
    let folder = Folder::with_shelf(SIZES);
    let wrong = [
        ("", "a command is missing"),
        ("frobnicate @a", "`frobnicate` is no command"),
        ("get @a 5 0", "get: KEY is missing"),
        ("get @a 5 0 0 0", "get: `0` is too much"),
        ("get @a five 0 0", "EDITION: `five` is not a number"),
        ("get @a 5 0x 0", "HASH: `0x` is not a number"),
        ("get @a 5 -1 0", "`-1` is no option of it"),
        ("get @a 5 18446744073709551616 0", "above the largest 64-bit number"),
        ("list @a 5 --from", "a number is missing behind --from"),
        ("list @a 5 --from x", "--from: `x` is not a number"),
        ("list @a 5 --from 1 --from 2", "--from is there twice"),
        ("list @a 5 --json=1", "--json takes no number"),
        ("list @a 5 --first 1", "`--first` is no option of it"),
        ("format @b --branches 1 --entries 1", "--editions is missing"),
        ("tag 3005", "is not a tag"),
        ("tag (3005,1042", "is not a tag"),
        ("tag 30050,1042", "is not a tag"),
        ("tag +300,1042", "is not a tag"),
    ];
    for (line, words) in wrong {
        folder.fails(line, 64, words);
    }
}

#[test]
fn help_and_version() {
    let folder = Folder::new();
    assert_eq!(folder.done("--version"), concat!("shelf ", env!("CARGO_PKG_VERSION"), "\n"));
    let top = folder.done("--help");
    let commands = top.lines().skip_while(|line| *line != "commands:").skip(1).take_while(|line| !line.is_empty());
    let names: Vec<&str> = commands.filter_map(|line| line.split_whitespace().next()).collect();
    assert_eq!(names.len(), 15);
    for name in names {
        let help = folder.done(&format!("{name} --help"));
        assert!(help.starts_with(&format!("usage: shelf {name} ")) && help.contains("\nexamples:\n"), "{help}");
    }
    for status in ["12  work too short", "64  the command line", "74  the system", "75  another command"] {
        assert!(top.contains(status), "{status}");
    }
}

#[test]
fn a_word_behind_two_dashes_is_no_option() {
    let folder = Folder::with_shelf(SIZES);
    assert_eq!(folder.done("get @a 5 -- 0x26 1"), "10\n");
    folder.fails("get @a 5 0x26 -- --json", 64, "KEY: `--json` is not a number");
}
