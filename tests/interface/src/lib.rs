// Holds: the parts of this package, and the files of the repository that they read.
// Rests on: the folders crates, include and examples.

pub mod books;
pub mod declarations;
pub mod numbers;

use std::fs;
use std::path::PathBuf;

/// A path of the repository.
pub fn path(name: &str) -> PathBuf {
    PathBuf::from(env!("CARGO_MANIFEST_DIR"))
        .join("../..")
        .join(name)
}

pub fn text_of(name: &str) -> String {
    fs::read_to_string(path(name)).unwrap_or_else(|error| panic!("{name}: {error}"))
}
