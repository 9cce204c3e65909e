//! Where the crate does something else than document 01 asks for, shown by running the crate on the smallest input that was
//! found. docs/DIFFERENCES.md has the list with the reasons.
use crate::rpds_trie::{Key, Map, empty_map};
use rpds::map::hash_trie_map::probe::{Seen, SeenEntry, Sparse, index_from_hash, see};
use std::panic::{self, UnwindSafe};
use std::process::Command;
use std::{env, io};

const A: Key = Key { hash: 0, key: 1 };
const B: Key = Key { hash: 0, key: 2 };
const C: Key = Key { hash: 0, key: 3 };

/// What the argument is by which the program runs the one thing that does not end.
pub const ENDLESS: &str = "degree-1";

fn root_address(map: &Map) -> usize {
    match see(map) {
        Seen::Branch(address, _) => address,
        Seen::Single(entry) => entry.holder,
        Seen::Collision(_) => unreachable!("a collision stands below a branch"),
    }
}

/// The chain that is all there is in a map, and its depth.
fn chain<'a>(seen: &'a Seen<'a, Key, u64>) -> (&'a [SeenEntry<'a, Key, u64>], usize) {
    match seen {
        Seen::Branch(_, children) => {
            let (entries, depth) = chain(&children[0].1);
            (entries, depth + 1)
        }
        Seen::Single(entry) => (std::slice::from_ref(entry), 0),
        Seen::Collision(entries) => (entries, 0),
    }
}

fn keys(map: &Map) -> Vec<u64> {
    map.keys().map(|key| key.key).collect()
}

/// What a panic says, or that there was none.
fn outcome<A: std::fmt::Debug>(run: impl FnOnce() -> A + UnwindSafe) -> String {
    match panic::catch_unwind(run) {
        Ok(value) => format!("{value:?}"),
        Err(why) => {
            let said = why.downcast_ref::<String>().cloned();
            let said = said.or_else(|| why.downcast_ref::<&str>().map(ToString::to_string));
            format!("panics: {}", said.unwrap_or_default())
        }
    }
}

/// Inserts two keys at degree 1. It does not end; run it where memory is limited.
pub fn endless() {
    let map = empty_map(1).insert(A, 1);
    println!("one key: {:?}", keys(&map));
    println!("two keys: {:?}", keys(&map.insert(B, 2)));
}

fn degree_1() -> io::Result<String> {
    let own = env::current_exe()?;
    let limited =
        Command::new("sh").args(["-c", "ulimit -v 1000000; exec \"$0\" \"$1\""]).arg(own).arg(ENDLESS).output()?;
    let said = String::from_utf8_lossy(&limited.stdout).trim().replace('\n', "; ");
    let why = String::from_utf8_lossy(&limited.stderr);
    let why = why.lines().find(|line| line.contains("memory") || line.contains("overflow")).unwrap_or("no word");
    Ok(format!("with a gigabyte at most: {said}; then {} ({why})", limited.status))
}

fn bad_degrees() -> String {
    let tried = |degree: u8| format!("{degree} {}", outcome(move || empty_map(degree).size()));
    [0, 3, 65, 128].map(tried).join("; ")
}

fn missing_key() -> String {
    let map = empty_map(16).insert(A, 1);
    let left = map.remove(&B);
    let mut removed = map.clone();
    let was_there = removed.remove_mut(&B);
    let mut looked = map.clone();
    let found = looked.get_mut(&B).is_some();
    format!(
        "remove: equal {}, same root {}; remove_mut: {was_there}, same root {}; get_mut: {found}, same root {}",
        left == map,
        left.ptr_eq(&map),
        root_address(&removed) == root_address(&map),
        root_address(&looked) == root_address(&map)
    )
}

fn drawing() -> String {
    let map = empty_map(16).insert(A, 1).insert(B, 2);
    format!("two keys under one hash at degree 16: the chain stands at depth {}", chain(&see(&map)).1)
}

fn looking_moves() -> String {
    let mut map = empty_map(16).insert(A, 1).insert(B, 2);
    let before = keys(&map);
    let _ = map.get_mut(&A);
    format!("keys of a chain {before:?}, after get_mut of key 1 and no write {:?}", keys(&map))
}

fn new_key_in_a_chain() -> String {
    let old = empty_map(16).insert(A, 1).insert(B, 2);
    let new = old.insert(C, 3);
    let (old, new) = (see(&old), see(&new));
    let (old, new) = (chain(&old).0, &chain(&new).0[1..]);
    let same =
        |part: fn(&SeenEntry<'_, Key, u64>) -> usize| old.iter().zip(new).filter(|(a, b)| part(a) == part(b)).count();
    format!(
        "of the {} entries behind the new one {} are shared, and {} of the list nodes that hold them",
        old.len(),
        same(|entry| entry.address),
        same(|entry| entry.holder)
    )
}

fn popped() -> String {
    let mut array = Sparse::new();
    array.set(3, 7);
    let popped = array.pop();
    format!("{popped:?}; then size {}, words {:?}", array.size(), array.words())
}

fn index_64() -> String {
    let tried = || {
        let mut array = Sparse::new();
        array.set(0, 7);
        array.get(64)
    };
    outcome(tried)
}

fn deep() -> String {
    let tried = |degree: u8, depth: usize| {
        format!("degree {degree}, depth {depth}: {}", outcome(move || index_from_hash(u64::MAX, depth, degree)))
    };
    [tried(2, 64), tried(2, 1 << 32), tried(64, 11), tried(64, 715_827_883)].join("; ")
}

/// Runs the crate on each input that it comes back from, and says what it did.
pub fn shown() -> Vec<String> {
    let hook = panic::take_hook();
    panic::set_hook(Box::new(|_| ()));
    let lines = vec![
        format!("other bad degrees: {}", bad_degrees()),
        format!("a missing key in a map of one: {}", missing_key()),
        format!("the drawing's last row: {}", drawing()),
        format!("get_mut in a chain: {}", looking_moves()),
        format!("a new key in a chain of two: {}", new_key_in_a_chain()),
        format!("the sparse array's pop: {}", popped()),
        format!("the sparse array's get at index 64: {}", index_64()),
        format!("index_from_hash where depth or shift wraps: {}", deep()),
    ];
    panic::set_hook(hook);
    lines
}

/// All differences, degree 1 among them.
pub fn show() -> io::Result<String> {
    let build = if cfg!(debug_assertions) { "with" } else { "without" };
    let first = format!("This build is {build} debug assertions.\ndegree 1: {}", degree_1()?);
    Ok([vec![first], shown()].concat().join("\n"))
}
