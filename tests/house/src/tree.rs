// Holds: the repository's crates, their files, and which crates lie below which.
// Rests on: crates.txt and crates/.

use std::collections::{BTreeMap, BTreeSet};
use std::fs;
use std::path::{Path, PathBuf};

/// The root of the repository, two folders above this package.
pub fn root() -> PathBuf {
    Path::new(env!("CARGO_MANIFEST_DIR")).join("../..")
}

pub fn read(path: &Path) -> String {
    fs::read_to_string(path).unwrap_or_else(|fault| panic!("{}: {fault}", path.display()))
}

/// Each listed crate, with all that it names as below it. Its name may have a word behind it, as `staticlib`.
pub fn crates(root: &Path) -> BTreeMap<String, BTreeSet<String>> {
    let text = read(&root.join("crates.txt"));
    let lines = text.lines().filter(|line| !line.starts_with('#'));
    let parts = lines.filter_map(|line| line.split_once(':'));
    parts
        .filter_map(|(own, below)| {
            let below = below.split_whitespace().map(str::to_string);
            let name = own.split_whitespace().next()?;
            Some((name.to_string(), below.collect()))
        })
        .collect()
}

/// The files of a crate's part, `src`, `specs` or `proofs`, that end so; those of functions' proofs, a folder each, are left out.
pub fn files(root: &Path, name: &str, part: &str, ending: &str) -> Vec<PathBuf> {
    let folder = root.join("crates").join(name).join(part);
    let entries = fs::read_dir(folder).into_iter().flatten().flatten();
    let mut found: Vec<PathBuf> = entries
        .map(|entry| entry.path())
        .filter(|path| path.is_file() && path.to_string_lossy().ends_with(ending))
        .collect();
    found.sort();
    found
}

/// Every file of code, definitions and laws below a folder.
pub fn all_files(folder: &Path) -> Vec<PathBuf> {
    let entries = fs::read_dir(folder).into_iter().flatten().flatten();
    let mut found = Vec::new();
    for path in entries.map(|entry| entry.path()) {
        let name = path.to_string_lossy();
        if path.is_dir() {
            found.extend(all_files(&path));
        } else if name.ends_with(".antt") || name.ends_with(".rt") {
            found.push(path);
        }
    }
    found
}
