//! The proved library's functions, as `include/shelf.h` declares them for C.
//!
//! A slice crosses as a pointer and a length in words. Each function has no precondition beyond what the types of its
//! parameters say in Rattle: a slice's words can be read (and written, where it is not `const`), and no other slice of
//! the call overlaps it. A reference of Rust's is all that and never null, so every call here is sound for slices.
#![allow(unsafe_code)]

/// What every call answers: document 01's number, and up to three values, zeros where there is none.
#[repr(C)]
#[derive(Clone, Copy, Debug, PartialEq, Eq)]
pub struct Answer {
    /// 0 for done, or the number of a refusal.
    pub number: u64,
    /// The first value.
    pub a: u64,
    /// The second value.
    pub b: u64,
    /// The third value.
    pub c: u64,
}

unsafe extern "C" {
    fn shelf_format(arena: *mut u64, words: usize, degree: u64, branches: u64, entries: u64, editions: u64) -> Answer;
    fn shelf_check(arena: *const u64, words: usize, work: *mut u64, work_words: usize) -> Answer;
    fn shelf_new_edition(arena: *mut u64, words: usize) -> Answer;
    fn shelf_share(arena: *mut u64, words: usize, edition: u64) -> Answer;
    fn shelf_size(arena: *const u64, words: usize, edition: u64) -> Answer;
    fn shelf_in_use(arena: *const u64, words: usize) -> Answer;
    fn shelf_get(arena: *const u64, words: usize, edition: u64, hash: u64, key: u64) -> Answer;
    fn shelf_list(arena: *const u64, words: usize, edition: u64, place: u64, out: *mut u64, out_words: usize)
    -> Answer;
    fn shelf_equal(arena: *const u64, words: usize, first: u64, second: u64) -> Answer;
    fn shelf_insert(arena: *mut u64, words: usize, edition: u64, hash: u64, key: u64, value: u64) -> Answer;
    fn shelf_change(arena: *mut u64, words: usize, edition: u64, hash: u64, key: u64, value: u64) -> Answer;
    fn shelf_remove(arena: *mut u64, words: usize, edition: u64, hash: u64, key: u64) -> Answer;
    fn shelf_drop(arena: *mut u64, words: usize, edition: u64) -> Answer;
    fn shelf_tag_class(group: u16, element: u16) -> Answer;
    fn shelf_key_1(group: u16, element: u16) -> Answer;
}

pub fn format(arena: &mut [u64], degree: u64, branches: u64, entries: u64, editions: u64) -> Answer {
    unsafe { shelf_format(arena.as_mut_ptr(), arena.len(), degree, branches, entries, editions) }
}

pub fn check(arena: &[u64], work: &mut [u64]) -> Answer {
    unsafe { shelf_check(arena.as_ptr(), arena.len(), work.as_mut_ptr(), work.len()) }
}

pub fn new_edition(arena: &mut [u64]) -> Answer {
    unsafe { shelf_new_edition(arena.as_mut_ptr(), arena.len()) }
}

pub fn share(arena: &mut [u64], edition: u64) -> Answer {
    unsafe { shelf_share(arena.as_mut_ptr(), arena.len(), edition) }
}

pub fn size(arena: &[u64], edition: u64) -> Answer {
    unsafe { shelf_size(arena.as_ptr(), arena.len(), edition) }
}

pub fn in_use(arena: &[u64]) -> Answer {
    unsafe { shelf_in_use(arena.as_ptr(), arena.len()) }
}

#[inline]
pub fn get(arena: &[u64], edition: u64, hash: u64, key: u64) -> Answer {
    unsafe { shelf_get(arena.as_ptr(), arena.len(), edition, hash, key) }
}

pub fn list(arena: &[u64], edition: u64, place: u64, out: &mut [u64]) -> Answer {
    unsafe { shelf_list(arena.as_ptr(), arena.len(), edition, place, out.as_mut_ptr(), out.len()) }
}

pub fn equal(arena: &[u64], first: u64, second: u64) -> Answer {
    unsafe { shelf_equal(arena.as_ptr(), arena.len(), first, second) }
}

#[inline]
pub fn insert(arena: &mut [u64], edition: u64, hash: u64, key: u64, value: u64) -> Answer {
    unsafe { shelf_insert(arena.as_mut_ptr(), arena.len(), edition, hash, key, value) }
}

#[inline]
pub fn change(arena: &mut [u64], edition: u64, hash: u64, key: u64, value: u64) -> Answer {
    unsafe { shelf_change(arena.as_mut_ptr(), arena.len(), edition, hash, key, value) }
}

#[inline]
pub fn remove(arena: &mut [u64], edition: u64, hash: u64, key: u64) -> Answer {
    unsafe { shelf_remove(arena.as_mut_ptr(), arena.len(), edition, hash, key) }
}

#[inline]
pub fn drop(arena: &mut [u64], edition: u64) -> Answer {
    unsafe { shelf_drop(arena.as_mut_ptr(), arena.len(), edition) }
}

pub fn tag_class(group: u16, element: u16) -> Answer {
    unsafe { shelf_tag_class(group, element) }
}

pub fn key_1(group: u16, element: u16) -> Answer {
    unsafe { shelf_key_1(group, element) }
}
