//! The stored station programs: `examples/` and `examples/cases/`.
#![allow(dead_code)] // no test program uses all of it

use std::fs;
use std::path::{Path, PathBuf};

pub const EXAMPLES: &str = "../examples";
pub const CASES: &str = "../examples/cases";

/// A stored file and the printout beside it.
pub struct Stored {
    pub name: String,
    pub file: Vec<u8>,
    pub printout: Vec<u8>,
}

/// All files of a folder; it has some.
pub fn all(folder: &str) -> Vec<Stored> {
    let folder = Path::new(env!("CARGO_MANIFEST_DIR")).join(folder);
    let mut paths: Vec<PathBuf> = fs::read_dir(&folder)
        .expect("the folder")
        .map(|entry| entry.expect("an entry of the folder").path())
        .filter(|path| path.extension().is_some_and(|ending| ending == "bin"))
        .collect();
    paths.sort();
    assert!(!paths.is_empty(), "no files in {}", folder.display());
    paths.iter().map(|path| read(path)).collect()
}

/// The file of that name.
pub fn one(folder: &str, name: &str) -> Stored {
    let folder = Path::new(env!("CARGO_MANIFEST_DIR")).join(folder);
    read(&folder.join(name).with_extension("bin"))
}

fn read(path: &Path) -> Stored {
    let bytes =
        |path: &Path| fs::read(path).unwrap_or_else(|error| panic!("{}: {error}", path.display()));
    let name = path.file_stem().expect("a name");
    Stored {
        name: name.to_string_lossy().into_owned(),
        file: bytes(path),
        printout: bytes(&path.with_extension("txt")),
    }
}
