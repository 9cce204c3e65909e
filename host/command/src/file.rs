//! Arena files: read, locked, and replaced as a whole.
use crate::failure::Failure;
use crate::numbers::grouped;
use shelf::Refusal;
use std::ffi::OsString;
use std::fs::{self, File, OpenOptions, TryLockError};
use std::io::{self, BufWriter, Read, Write};
use std::os::unix::fs::{MetadataExt, OpenOptionsExt, fchown};
use std::path::{Path, PathBuf};
use std::process;

/// Bytes of a word in a file.
const WORD: usize = size_of::<u64>();
/// Words that are read at a time.
const CHUNK: usize = 8_192;

/// So many words, all 0; the system may not have the room.
pub fn zeros(words: usize) -> Result<Vec<u64>, Failure> {
    let mut zeros = Vec::new();
    let no_room = |_| Failure::System(format!("there is no memory for {} words", grouped(words as u64)));
    zeros.try_reserve_exact(words).map_err(no_room)?;
    zeros.resize(words, 0);
    Ok(zeros)
}

/// Sees that a file is there and is a plain one. Others are not opened: a pipe would wait for a writer.
fn plain(path: &Path) -> Result<(), Failure> {
    match fs::metadata(path) {
        Ok(about) if about.is_file() => Ok(()),
        Ok(_) => Err(Failure::System(format!("{} is not a plain file", path.display()))),
        Err(error) => Err(cannot_read(path, &error)),
    }
}

fn cannot_read(path: &Path, error: &io::Error) -> Failure {
    Failure::system(format!("{} cannot be read", path.display()), error)
}

/// The words of an arena file.
pub fn read(path: &Path) -> Result<Vec<u64>, Failure> {
    plain(path)?;
    let cannot = |error| cannot_read(path, &error);
    let mut file = File::open(path).map_err(cannot)?;
    let bytes = file.metadata().map_err(cannot)?.len();
    if !bytes.is_multiple_of(WORD as u64) {
        let because = format!("{} has {} bytes, which are no whole words of 8", path.display(), grouped(bytes));
        return Err(Failure::refused(Refusal::Damaged, because));
    }
    let mut words = zeros(usize::try_from(bytes / WORD as u64).unwrap_or(usize::MAX))?;
    let mut buffer = vec![0; WORD * CHUNK];
    for chunk in words.chunks_mut(CHUNK) {
        let read = &mut buffer[..WORD * chunk.len()];
        file.read_exact(read).map_err(cannot)?;
        for (word, bytes) in chunk.iter_mut().zip(read.as_chunks::<WORD>().0) {
            *word = u64::from_le_bytes(*bytes);
        }
    }
    Ok(words)
}

/// An arena file that this command alone may replace, for as long as the value lives.
pub struct Locked {
    path: PathBuf,
    lock: File,
}

impl Drop for Locked {
    /// Closing the file is not enough where a process that was started meanwhile has it open too.
    fn drop(&mut self) {
        let _ = self.lock.unlock();
    }
}

impl Locked {
    /// Locks a file that is there.
    pub fn existing(path: &Path) -> Result<Locked, Failure> {
        plain(path)?;
        Locked::at(path, fs::canonicalize(path))
    }

    /// Locks a file that is there or is to be made.
    pub fn any(path: &Path) -> Result<Locked, Failure> {
        if path.exists() { Locked::existing(path) } else { Locked::at(path, in_its_folder(path)) }
    }

    /// Locks the file beside the one that is really meant, links followed, so that every name of it leads to one lock.
    /// The system lets the lock go when the process ends, however it ends.
    fn at(asked: &Path, path: io::Result<PathBuf>) -> Result<Locked, Failure> {
        let name = asked.display();
        let path = path.map_err(|error| Failure::system(format!("{name} cannot be found"), &error))?;
        let beside = with_ending(&path, ".lock");
        let open = OpenOptions::new().append(true).create(true).open(&beside);
        // Another user's lock file may be readable only, which is enough to lock it.
        let open = open.or_else(|error| File::open(&beside).map_err(|_| error));
        let cannot = |error| Failure::system(format!("{} cannot be locked", beside.display()), &error);
        let lock = open.map_err(cannot)?;
        match lock.try_lock() {
            Ok(()) => Ok(Locked { path, lock }),
            Err(TryLockError::Error(error)) => Err(cannot(error)),
            Err(TryLockError::WouldBlock) => {
                let text = format!("another command is changing {name} ({} is locked): try again", beside.display());
                Err(Failure::Locked(text))
            }
        }
    }

    /// Whether the file is there.
    pub fn exists(&self) -> bool {
        self.path.symlink_metadata().is_ok()
    }

    /// The words of the file.
    pub fn read(&self) -> Result<Vec<u64>, Failure> {
        read(&self.path)
    }

    /// Puts a new file of these words in the place of the old one: whoever reads sees the one or the other, and after a
    /// crash one of them is there.
    pub fn replace(&self, words: &[u64]) -> Result<(), Failure> {
        let name = self.path.display();
        let put = Fresh::beside(&self.path).and_then(|new| new.put(words, &self.path));
        put.map_err(|error| Failure::system(format!("{name} cannot be written"), &error))?;
        let synced = File::open(folder(&self.path)).and_then(|folder| folder.sync_all());
        synced.map_err(|error| Failure::system(format!("{name} is written, but its folder cannot be synced"), &error))
    }
}

/// A new file, which goes again unless it is put in its place.
struct Fresh {
    file: File,
    path: Option<PathBuf>,
}

impl Fresh {
    /// A new file in the folder of another, with the owner and the permissions of that one if it is there. One that may
    /// not be written is not to be replaced either.
    fn beside(path: &Path) -> io::Result<Fresh> {
        let old = match OpenOptions::new().write(true).open(path) {
            Ok(file) => Some(file.metadata()?),
            Err(error) if error.kind() == io::ErrorKind::NotFound => None,
            Err(error) => return Err(error),
        };
        let fresh = with_ending(path, &format!(".{}.new", process::id()));
        let mode = if old.is_some() { 0o600 } else { 0o666 };
        let file = OpenOptions::new().write(true).create_new(true).mode(mode).open(&fresh)?;
        let new = Fresh { file, path: Some(fresh) };
        if let Some(old) = old {
            // Only some users may give a file away; the permissions are kept for all.
            let _ = fchown(&new.file, Some(old.uid()), Some(old.gid()));
            new.file.set_permissions(old.permissions())?;
        }
        Ok(new)
    }

    /// Writes the words, and takes the place of the other file once they are on disk.
    fn put(mut self, words: &[u64], place: &Path) -> io::Result<()> {
        let mut out = BufWriter::with_capacity(WORD * CHUNK, &self.file);
        words.iter().try_for_each(|word| out.write_all(&word.to_le_bytes()))?;
        out.flush()?;
        self.file.sync_all()?;
        if let Some(path) = &self.path {
            fs::rename(path, place)?;
        }
        self.path = None;
        Ok(())
    }
}

impl Drop for Fresh {
    fn drop(&mut self) {
        if let Some(path) = &self.path {
            let _ = fs::remove_file(path);
        }
    }
}

/// The path of a file that need not be there, in a folder that is.
fn in_its_folder(path: &Path) -> io::Result<PathBuf> {
    let no_name = || io::Error::new(io::ErrorKind::InvalidInput, "the path names no file");
    let name = path.file_name().ok_or_else(no_name)?;
    Ok(fs::canonicalize(folder(path))?.join(name))
}

fn folder(path: &Path) -> &Path {
    path.parent().filter(|folder| !folder.as_os_str().is_empty()).unwrap_or(Path::new("."))
}

fn with_ending(path: &Path, ending: &str) -> PathBuf {
    let mut name = OsString::from(path);
    name.push(ending);
    PathBuf::from(name)
}
