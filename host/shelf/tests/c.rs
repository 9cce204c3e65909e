//! The header and the archive as a C program sees them: `table.c`, compiled strictly, linked, run and held to
//! `table.txt`.
use std::env;
use std::io::ErrorKind;
use std::path::{Path, PathBuf};
use std::process::{Command, Output};

const STRICT: [&str; 4] = ["-Wall", "-Wextra", "-Wpedantic", "-Werror"];

/// The compiler that an environment variable names, with the words behind it, or the system's.
fn compiler(variable: &str, otherwise: &str) -> Command {
    let named = env::var(variable).unwrap_or_default();
    let mut words = named.split_whitespace();
    let mut command = Command::new(words.next().unwrap_or(otherwise));
    command.args(words);
    command
}

fn include() -> PathBuf {
    Path::new(env!("CARGO_MANIFEST_DIR")).join("../../include")
}

/// What a command wrote, once it is over and has gone well.
fn written(command: &mut Command, output: &Output) -> String {
    let text = String::from_utf8_lossy(&output.stdout).into_owned();
    let complaint = String::from_utf8_lossy(&output.stderr);
    assert!(output.status.success(), "{command:?} ends with {}\n{text}{complaint}", output.status);
    text
}

fn run(command: &mut Command) -> String {
    let output = command.output().unwrap_or_else(|why| panic!("{command:?} does not start: {why}"));
    written(command, &output)
}

#[test]
fn the_shelf_table_runs_from_c() {
    let program = Path::new(env!("CARGO_TARGET_TMPDIR")).join("table");
    run(compiler("CC", "cc")
        .arg("-std=c99")
        .args(STRICT)
        .arg("-I")
        .arg(include())
        .arg(Path::new(env!("CARGO_MANIFEST_DIR")).join("tests/table.c"))
        .arg(Path::new(env!("SHELF_C_FOLDER")).join("libshelf_c.a"))
        .arg("-o")
        .arg(&program));
    let lines = run(&mut Command::new(&program));
    for (got, wanted) in lines.lines().zip(include_str!("table.txt").lines()) {
        assert_eq!(got, wanted);
    }
    assert_eq!(lines.lines().count(), include_str!("table.txt").lines().count());
}

#[test]
fn the_header_is_also_cpp() {
    let mut command = compiler("CXX", "c++");
    command.args(STRICT).args(["-x", "c++", "-fsyntax-only"]).arg(include().join("shelf.h"));
    match command.output() {
        Err(why) if why.kind() == ErrorKind::NotFound => {
            eprintln!("there is no C++ compiler, so the header is not tried")
        }
        Err(why) => panic!("{command:?} does not start: {why}"),
        Ok(output) => assert_eq!(written(&mut command, &output), ""),
    }
}
