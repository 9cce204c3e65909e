//! Files: locks, whole replacements, permissions, and streams that fail.
mod common;
use common::Folder;
use std::fs::{self, File, OpenOptions, Permissions};
use std::os::unix::fs::{PermissionsExt, symlink};
use std::process::{Command, Stdio};
use std::thread::sleep;
use std::time::Duration;

const SIZES: &str = "--branches 30 --entries 8 --editions 8";

#[test]
fn one_writer_at_a_time() {
    let folder = Folder::with_shelf(SIZES);
    let lock = OpenOptions::new().append(true).open(folder.path("a.lock")).expect("the lock file is left there");
    lock.lock().expect("no one else has it");
    let changing = ["new @a", "drop @a 5", "insert @a 0 0 0 0", "load @a 0 /dev/null"];
    for line in changing {
        folder.fails(line, 75, "another command is changing");
    }
    folder.fails(&format!("format @a {SIZES} --force"), 75, "another command is changing");
    assert_eq!(folder.spawn("new a").status, 75);
    assert_eq!(folder.done("get @a 5 0x26 1"), "10\n");
    drop(lock);
    folder.done("new @a");
}

#[test]
fn a_file_is_not_formatted_by_mistake() {
    let folder = Folder::with_shelf(SIZES);
    folder.fails(&format!("format @a {SIZES}"), 74, "--force replaces it");
    folder.done("format @a --degree 2 --branches 1 --entries 1 --editions 1 --force");
    assert_eq!(folder.read("a").len(), 26 * 8);
    assert_eq!(folder.done("check @a"), "sound\n");
}

#[test]
fn permissions_are_kept() {
    let folder = Folder::with_shelf(SIZES);
    for mode in [0o600, 0o640, 0o664] {
        fs::set_permissions(folder.path("a"), Permissions::from_mode(mode)).expect("it is ours");
        folder.done("drop @a 0");
        folder.done("new @a");
        folder.done(&format!("format @b {SIZES} --force"));
        assert_eq!(fs::metadata(folder.path("a")).expect("it is there").permissions().mode() & 0o777, mode);
    }
    assert_eq!(folder.names(), ["a", "a.lock", "b", "b.lock"]);
}

#[test]
fn a_link_stays_a_link() {
    let folder = Folder::with_shelf(SIZES);
    symlink("a", folder.path("link")).expect("the folder takes links");
    folder.done("new @link");
    assert!(folder.path("link").is_symlink());
    assert_eq!(folder.names(), ["a", "a.lock", "link"]);
    assert!(folder.done("info @a").ends_with("      6        0\n"));
}

#[test]
fn words_beyond_the_total_stay() {
    let folder = Folder::with_shelf(SIZES);
    let longer = [folder.read("a"), vec![7; 24]].concat();
    folder.write("a", &longer);
    folder.done("drop @a 5");
    assert!(folder.done("info @a").contains(" and 3 beyond them in the file\n"));
    assert!(folder.read("a").ends_with(&[7; 24]));
    assert_eq!(folder.read("a").len(), longer.len());
}

#[test]
fn what_is_no_file_is_said() {
    let folder = Folder::new();
    fs::create_dir(folder.path("d")).expect("the folder is ours");
    folder.fails("info @none", 74, "none cannot be read: No such file");
    folder.fails("new @none", 74, "none cannot be read: No such file");
    folder.fails("info @d", 74, "d is not a plain file");
    folder.fails("new @d", 74, "d is not a plain file");
    folder.fails("info /dev/zero", 74, "is not a plain file");
    folder.fails(&format!("format @no/a {SIZES}"), 74, "cannot be found");
    folder.fails(&format!("format @d {SIZES} --force"), 74, "d is not a plain file");
    folder.fails(&format!("format .. {SIZES} --force"), 74, ".. is not a plain file");
}

#[test]
fn nothing_is_left_of_a_write_that_fails() {
    let folder = Folder::with_shelf(SIZES);
    let before = folder.read("a");
    // Files may have a block or two, which the arena is longer than.
    let limited = format!("trap '' XFSZ; ulimit -f 2; exec {} new a", env!("CARGO_BIN_EXE_shelf"));
    let ran =
        Command::new("sh").args(["-c", &limited]).current_dir(folder.path("")).output().expect("there is a shell");
    assert_eq!(ran.status.code(), Some(74));
    assert!(String::from_utf8_lossy(&ran.stderr).contains("a cannot be written: "));
    assert_eq!(folder.names(), ["a", "a.lock"]);
    assert!(folder.read("a") == before);
}

#[test]
fn a_killed_writer_leaves_no_lock() {
    let folder = Folder::with_shelf(SIZES);
    let before = folder.read("a");
    let mut child = folder.binary("load a 0 -").stdin(Stdio::piped()).spawn().expect("the binary runs");
    // The load waits for triples under its lock.
    let locked = (0..1_000).any(|_| {
        sleep(Duration::from_millis(5));
        folder.run("drop @a 7").status == 75
    });
    assert!(locked);
    child.kill().and_then(|()| child.wait()).expect("it ends");
    assert!(folder.read("a") == before);
    folder.done("new @a");
}

#[test]
fn a_reader_that_goes_is_no_failure() {
    let folder = Folder::with_shelf(SIZES);
    let mut child =
        folder.binary("list a 5").stdout(Stdio::piped()).stderr(Stdio::piped()).spawn().expect("the binary runs");
    drop(child.stdout.take());
    let ran = child.wait_with_output().expect("it ends");
    assert_eq!((ran.status.code(), ran.stderr.as_slice()), (Some(0), &[][..]));
}

#[test]
fn an_answer_that_cannot_be_written_is_said() {
    let folder = Folder::with_shelf(SIZES);
    let full = OpenOptions::new().write(true).open("/dev/full").expect("the system has it");
    let ran = folder.binary("new a").stdout(full).stderr(Stdio::piped()).output().expect("the binary runs");
    assert_eq!(ran.status.code(), Some(74));
    assert!(String::from_utf8_lossy(&ran.stderr).contains("the answer cannot be written"));
    assert!(folder.done("info @a").ends_with("      6        0\n"));
}

#[test]
fn progress_is_for_terminals() {
    let folder = Folder::with_shelf("--branches 60 --entries 16 --editions 10");
    let lines = (0..20_000).map(|at| format!("{} 1 {at}\n", at % 3)).collect::<String>();
    folder.write("t", lines);
    let ran = folder.spawn("load a 5 t");
    assert_eq!((ran.status, ran.err.as_str()), (0, ""));
    let (mut out, mut err) = (Vec::new(), Vec::new());
    let args = ["load".into(), folder.path("a").into(), "5".into(), folder.path("t").into()];
    let mut input = std::io::BufReader::new(File::open("/dev/null").expect("the system has it"));
    let mut streams = shelf_command::Streams { input: &mut input, out: &mut out, err: &mut err, err_is_terminal: true };
    assert_eq!(shelf_command::run(&args, &mut streams), 0);
    let err = String::from_utf8(err).expect("a text");
    assert!(err.starts_with("\r[") && err.contains("] 16,384 lines") && err.ends_with("\r\x1b[K"), "{err}");
}
