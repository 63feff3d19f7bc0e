//! Finds the archive `libhogunlas.a` and has it linked.

use std::env;
use std::path::PathBuf;

fn main() {
    let directory = library_directory();
    let archive = directory.join("libhogunlas.a");
    println!("cargo:rerun-if-env-changed=HOGUNLAS_LIB_DIR");
    println!("cargo:rerun-if-changed={}", archive.display());
    if !archive.is_file() {
        panic!(
            "there is no {}: run `bash .ci/build` at the repository's root, or set \
             HOGUNLAS_LIB_DIR to the folder that holds libhogunlas.a",
            archive.display()
        );
    }
    println!("cargo:rustc-link-search=native={}", directory.display());
    println!("cargo:rustc-link-lib=static=hogunlas");
    // The tests link the same archive into a C program and look at the names it exports.
    println!("cargo:rustc-env=HOGUNLAS_ARCHIVE={}", archive.display());
}

/// Where the archive is: `HOGUNLAS_LIB_DIR`, or where `.ci/build` writes it.
fn library_directory() -> PathBuf {
    let manifest = env::var_os("CARGO_MANIFEST_DIR").expect("cargo sets CARGO_MANIFEST_DIR");
    match env::var_os("HOGUNLAS_LIB_DIR") {
        Some(directory) => PathBuf::from(manifest).join(directory),
        None => PathBuf::from(manifest).join("../target/staticlib"),
    }
}
