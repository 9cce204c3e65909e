//! What the tests have in common: a folder of their own, and the command run on files in it.
#![allow(dead_code)]
use shelf_command::Streams;
use std::ffi::OsString;
use std::fs;
use std::path::{Path, PathBuf};
use std::process::{Command, Stdio};
use std::sync::atomic::{AtomicU64, Ordering::Relaxed};

/// Entries of document 01's shelf table, by the arguments of an insert: A to E.
pub const SHELF: [&str; 5] =
    ["0x26 1 10", "0x16 2 20", "0x42 3 30", "0x7000000000000008 4 40", "0x7000000000000008 5 50"];

/// A folder that goes with the value.
pub struct Folder(PathBuf);

/// What a run of the command came to.
#[derive(Debug)]
pub struct Ran {
    pub status: u8,
    pub out: String,
    pub err: String,
}

impl Folder {
    pub fn new() -> Folder {
        static NEXT: AtomicU64 = AtomicU64::new(0);
        let name = format!("shelf-command-{}-{}", std::process::id(), NEXT.fetch_add(1, Relaxed));
        let path = std::env::temp_dir().join(name);
        fs::create_dir(&path).expect("the folder is new");
        Folder(path)
    }

    /// A folder with an arena file `a` of the shelf table: edition 0 is empty, and K1 to K5 are editions 1 to 5.
    pub fn with_shelf(sizes: &str) -> Folder {
        let folder = Folder::new();
        folder.done(&format!("format @a {sizes}"));
        folder.done("new @a");
        for (of, entry) in SHELF.iter().enumerate() {
            folder.done(&format!("insert @a {of} {entry}"));
        }
        folder
    }

    pub fn path(&self, name: &str) -> PathBuf {
        self.0.join(name)
    }

    pub fn read(&self, name: &str) -> Vec<u8> {
        fs::read(self.path(name)).expect("the file is there")
    }

    /// Writes a new file: to write over an old one may wait for the disk.
    pub fn write(&self, name: &str, bytes: impl AsRef<[u8]>) {
        let _ = fs::remove_file(self.path(name));
        fs::write(self.path(name), bytes).expect("the folder takes files");
    }

    /// The names of the files, in order.
    pub fn names(&self) -> Vec<String> {
        let files = fs::read_dir(&self.0).expect("the folder is there");
        let mut names: Vec<_> =
            files.map(|file| file.expect("a file").file_name().into_string().expect("a plain name")).collect();
        names.sort();
        names
    }

    /// The words of a line as arguments: `@` begins the name of a file in the folder.
    fn args(&self, line: &str) -> Vec<OsString> {
        let argument = |word: &str| match word.strip_prefix('@') {
            Some(name) => self.path(name).into_os_string(),
            None => word.into(),
        };
        line.split_whitespace().map(argument).collect()
    }

    /// Runs the command in this process.
    pub fn run(&self, line: &str) -> Ran {
        let (mut out, mut err) = (Vec::new(), Vec::new());
        let mut streams =
            Streams { input: &mut std::io::empty(), out: &mut out, err: &mut err, err_is_terminal: false };
        let status = shelf_command::run(&self.args(line), &mut streams);
        Ran { status, out: text(out), err: text(err) }
    }

    /// Runs the command in this process, and sees that it is done; gives what it answered.
    pub fn done(&self, line: &str) -> String {
        let Ran { status, out, err } = self.run(line);
        assert_eq!((status, err.as_str()), (0, ""), "{line}");
        out
    }

    /// Runs the command in this process, and sees that it fails with this status and a sentence that has these words,
    /// with no file of the folder made, changed or gone.
    pub fn fails(&self, line: &str, status: u8, words: &str) -> Ran {
        let before = self.files();
        let ran = self.run(line);
        assert_eq!(ran.status, status, "{line}: {ran:?}");
        assert!(ran.err.starts_with("shelf: ") && ran.err.contains(words), "{line}: {ran:?}");
        assert!(self.files() == before, "{line} changed a file");
        ran
    }

    fn files(&self) -> Vec<(String, Vec<u8>)> {
        let plain = self.names().into_iter().filter(|name| self.path(name).is_file());
        plain.map(|name| (name.clone(), self.read(&name))).collect()
    }

    /// The binary with the arguments of a line, to be run in the folder.
    pub fn binary(&self, line: &str) -> Command {
        let mut command = Command::new(Path::new(env!("CARGO_BIN_EXE_shelf")));
        command.args(self.args(line)).current_dir(&self.0).stdin(Stdio::null());
        command
    }

    /// Runs the binary.
    pub fn spawn(&self, line: &str) -> Ran {
        let ran = self.binary(line).output().expect("the binary runs");
        let status = ran.status.code().expect("it exits by itself") as u8;
        Ran { status, out: text(ran.stdout), err: text(ran.stderr) }
    }
}

impl Drop for Folder {
    fn drop(&mut self) {
        let _ = fs::remove_dir_all(&self.0);
    }
}

fn text(bytes: Vec<u8>) -> String {
    String::from_utf8(bytes).expect("what is written is text")
}
