//! Finds the sources of rpds 1.2.1, sees that they are the published ones, and links to them.
//!
//! None of their text stands in this repository: they are compiled where they lie, in the folder that `RPDS_SRC` names.
//! Where that folder is missing, or a file in it is another, the build says so and stops.
use std::os::unix::fs::symlink;
use std::path::{Path, PathBuf};
use std::{env, fs, io, process};

/// Where the sources are looked for if `RPDS_SRC` is not set. Like a relative `RPDS_SRC` it counts from the top of the
/// repository.
const DEFAULT_FOLDER: &str = "../shared/docs/src";

/// The files, each with its length and its FNV-1a fingerprint.
const FILES: [(&str, usize, u64); 5] = [
    ("src/list/mod.rs", 13213, 0xb39b_7d0b_435b_5407),
    ("src/map/entry.rs", 229, 0x21c1_1585_d6f7_cdc6),
    ("src/map/hash_trie_map/mod.rs", 37398, 0x3bae_76d9_05eb_4289),
    ("src/map/hash_trie_map/sparse_array_usize/mod.rs", 2948, 0x01ea_4157_32a4_b737),
    ("src/utils/mod.rs", 667, 0x1e18_2d15_4c5c_b912),
];

fn fingerprint(bytes: &[u8]) -> u64 {
    bytes.iter().fold(0xcbf2_9ce4_8422_2325, |sum, byte| (sum ^ u64::from(*byte)).wrapping_mul(0x0100_0000_01b3))
}

fn stop(why: &str) -> ! {
    println!("cargo::error={why}");
    process::exit(1)
}

fn find_folder(top: &Path) -> PathBuf {
    let named = env::var("RPDS_SRC").unwrap_or_default();
    let named = if named.is_empty() { DEFAULT_FOLDER } else { &named };
    fs::canonicalize(top.join(named)).unwrap_or_else(|_| {
        stop(&format!(
            "the sources of rpds 1.2.1 are not here: there is no folder {named} (a relative name counts from the top of \
             the repository). Set RPDS_SRC to the folder of the crate, the one that holds src/map/hash_trie_map/mod.rs."
        ))
    })
}

fn see_file(folder: &Path, (name, length, print): (&str, usize, u64)) {
    let path = folder.join(name);
    match fs::read(&path) {
        Err(why) => stop(&format!("the sources of rpds 1.2.1 are not whole: {}: {why}", path.display())),
        Ok(bytes) if bytes.len() != length || fingerprint(&bytes) != print => stop(&format!(
            "{} is not that of rpds 1.2.1: it has {} bytes and fingerprint {:016x}, not {length} and {print:016x}",
            path.display(),
            bytes.len(),
            fingerprint(&bytes)
        )),
        Ok(_) => (),
    }
}

fn link_to(folder: &Path, link: &Path) -> io::Result<()> {
    if fs::read_link(link).is_ok_and(|to| to == folder) {
        return Ok(());
    }
    fs::create_dir_all(link.parent().unwrap())?;
    fs::remove_file(link).or_else(|why| if why.kind() == io::ErrorKind::NotFound { Ok(()) } else { Err(why) })?;
    symlink(folder, link)
}

fn main() {
    println!("cargo::rerun-if-env-changed=RPDS_SRC");
    println!("cargo::rerun-if-changed=build.rs");
    let own = PathBuf::from(env::var_os("CARGO_MANIFEST_DIR").unwrap());
    let folder = find_folder(&own.join("../.."));
    let link = own.join("../target/rpds");
    for file in FILES {
        println!("cargo::rerun-if-changed={}", link.join(file.0).display());
        see_file(&folder, file);
    }
    link_to(&folder, &link).unwrap_or_else(|why| stop(&format!("no link to the sources could be made: {why}")));
}
