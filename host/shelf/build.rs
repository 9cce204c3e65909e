//! Finds the proved library, `libshelf_c.a`, and has it linked. `rt lib`, in `crates/shelf_c`, writes it to the folder `out`
//! there; the environment variable `SHELF_C` names another folder.
use std::env;
use std::path::PathBuf;

fn main() {
    println!("cargo::rerun-if-env-changed=SHELF_C");
    let here = PathBuf::from(env::var_os("CARGO_MANIFEST_DIR").expect("cargo names the crate's folder"));
    let folder = match env::var_os("SHELF_C") {
        Some(folder) => PathBuf::from(folder),
        None => here.join("../../crates/shelf_c/out"),
    };
    let archive = folder.join("libshelf_c.a");
    println!("cargo::rerun-if-changed={}", archive.display());
    if !archive.is_file() {
        println!("cargo::error=there is no {}: make it by `rt lib` in crates/shelf_c", archive.display());
        return;
    }
    println!("cargo::rustc-link-search=native={}", folder.display());
    println!("cargo::rustc-link-lib=static=shelf_c");
    // The tests link a C program with it too.
    println!("cargo::rustc-env=SHELF_C_FOLDER={}", folder.display());
}
