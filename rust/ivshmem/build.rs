//! Finds the static library that the crate's `links` names, and has it linked.

use std::env;
use std::path::{Path, PathBuf};

fn main() {
    println!("cargo::rerun-if-env-changed=IVSHMEM_LIB_DIR");
    let library = env::var("CARGO_MANIFEST_LINKS").expect("the library's name");
    let folder = library_folder();
    let archive = folder.join(format!("lib{library}.a"));
    println!("cargo::rerun-if-changed={}", archive.display());
    println!("cargo::rustc-link-search=native={}", folder.display());
    println!("cargo::rustc-link-lib=static={library}");
    // No error: documentation and checks do without the archive. What links it fails by its name.
    if !archive.is_file() {
        println!(
            "cargo::warning=no {}, without which nothing links: make it with `./archive {library}` in the \
             repository's root, or name its folder in IVSHMEM_LIB_DIR",
            archive.display()
        );
    }
}

fn library_folder() -> PathBuf {
    match env::var_os("IVSHMEM_LIB_DIR") {
        Some(folder) => PathBuf::from(folder),
        None => Path::new(env!("CARGO_MANIFEST_DIR")).join("../../target/staticlib"),
    }
}
