//! Words that an arena owns: taken from the system once, zeros, aligned to a huge page, and given back at the end.
#![allow(unsafe_code)]
use std::ffi::{c_int, c_void};
use std::io;
use std::ops::{Deref, DerefMut};
use std::ptr::{self, NonNull};

/// A block of 64-bit words from the system, all 0 at first.
///
/// It is taken once, starts at a multiple of 2 MiB, and asks for huge pages where the system has them: in a large arena
/// every step of a lookup is on another page. Its length never changes.
///
/// ```
/// let mut words = shelf::Words::new(1_000)?;
/// words[999] = 7;
/// assert_eq!(words.len(), 1_000);
/// assert_eq!(words.as_ptr() as usize % shelf::Words::ALIGNMENT, 0);
/// # Ok::<(), std::io::Error>(())
/// ```
pub struct Words {
    start: NonNull<u64>,
    len: usize,
    mapped: NonNull<c_void>,
    mapped_bytes: usize,
}

unsafe extern "C" {
    fn mmap(at: *mut c_void, bytes: usize, protection: c_int, flags: c_int, file: c_int, offset: i64) -> *mut c_void;
    fn munmap(at: *mut c_void, bytes: usize) -> c_int;
    fn madvise(at: *mut c_void, bytes: usize, advice: c_int) -> c_int;
}

// The numbers of Linux on x86-64.
const PROT_READ_WRITE: c_int = 1 | 2;
const MAP_PRIVATE_ANONYMOUS: c_int = 0x02 | 0x20;
const MADV_HUGEPAGE: c_int = 14;

impl Words {
    /// What the first word's address is a multiple of, in bytes: the size of a huge page.
    pub const ALIGNMENT: usize = 2 << 20;

    /// Takes so many words from the system. Refused if it has not the room.
    pub fn new(len: usize) -> io::Result<Words> {
        let too_large = || io::Error::new(io::ErrorKind::OutOfMemory, "more words than the address space has");
        let bytes = len.checked_mul(size_of::<u64>()).ok_or_else(too_large)?;
        let mapped_bytes = bytes.checked_next_multiple_of(Self::ALIGNMENT).ok_or_else(too_large)?;
        let mapped_bytes = mapped_bytes.checked_add(Self::ALIGNMENT).ok_or_else(too_large)?;
        // A new private mapping: nothing else has a pointer into it, and its pages read as zeros.
        let mapped = unsafe { mmap(ptr::null_mut(), mapped_bytes, PROT_READ_WRITE, MAP_PRIVATE_ANONYMOUS, -1, 0) };
        if mapped as isize == -1 {
            return Err(io::Error::last_os_error());
        }
        let mapped = NonNull::new(mapped).ok_or_else(|| io::Error::other("the system mapped words at address 0"))?;
        // The mapping has a whole alignment more than the words need, so the skipped part and the words lie inside it.
        let skipped = mapped.as_ptr().addr().wrapping_neg() % Self::ALIGNMENT;
        let start = unsafe { mapped.byte_add(skipped) };
        // A refusal costs speed and nothing else.
        unsafe { madvise(start.as_ptr(), mapped_bytes - Self::ALIGNMENT, MADV_HUGEPAGE) };
        Ok(Words { start: start.cast(), len, mapped, mapped_bytes })
    }
}

impl Drop for Words {
    fn drop(&mut self) {
        // The mapping is this value's own, and the value is gone after this.
        unsafe { munmap(self.mapped.as_ptr(), self.mapped_bytes) };
    }
}

impl Deref for Words {
    type Target = [u64];

    fn deref(&self) -> &[u64] {
        // `len` words from `start` on lie in the mapping, which lives as long as `self` and was zeros at first.
        unsafe { std::slice::from_raw_parts(self.start.as_ptr(), self.len) }
    }
}

impl DerefMut for Words {
    fn deref_mut(&mut self) -> &mut [u64] {
        // As above; `self` is borrowed alone.
        unsafe { std::slice::from_raw_parts_mut(self.start.as_ptr(), self.len) }
    }
}

// The words are owned, like those of a `Vec`.
unsafe impl Send for Words {}
unsafe impl Sync for Words {}

impl std::fmt::Debug for Words {
    fn fmt(&self, out: &mut std::fmt::Formatter<'_>) -> std::fmt::Result {
        write!(out, "Words({})", self.len)
    }
}
