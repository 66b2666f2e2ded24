// Holds: where the static library of a proved crate is found, and how it is made when it is missing or old; for build scripts.
// Rests on: the repository's crates.txt, and `rt` on the path.

use std::path::{Path, PathBuf};
use std::process::Command;
use std::time::SystemTime;
use std::{env, fs};

/// The crates that a crate's line in crates.txt names. Its name may have a word behind it, as `staticlib`.
fn named(text: &str, name: &str) -> Vec<String> {
    let mut lines = text.lines().filter_map(|line| line.split_once(':'));
    let line = lines.find(|(own, _)| own.split_whitespace().next() == Some(name));
    let names = line.map(|(_, names)| names).unwrap_or("");
    names.split_whitespace().map(str::to_string).collect()
}

/// The folders of what is written of the crate and of all that it rests on; beside them lies what rt makes.
fn sources(root: &Path, name: &str) -> Vec<PathBuf> {
    let text = fs::read_to_string(root.join("crates.txt")).expect("crates.txt is at the root");
    let mut all = vec![name.to_string()];
    let mut next = 0;
    while next < all.len() {
        for below in named(&text, &all[next]) {
            if !all.contains(&below) {
                all.push(below);
            }
        }
        next += 1;
    }
    let folders = all.iter().map(|name| root.join("crates").join(name));
    folders
        .flat_map(|folder| ["src", "specs", "proofs"].map(|part| folder.join(part)))
        .filter(|path| path.exists())
        .collect()
}

/// When a file, or the latest one below a folder, was changed.
fn changed(path: &Path) -> SystemTime {
    let own = fs::metadata(path).and_then(|data| data.modified());
    let below = fs::read_dir(path).into_iter().flatten().flatten();
    below
        .map(|entry| changed(&entry.path()))
        .chain(own)
        .max()
        .unwrap_or(SystemTime::UNIX_EPOCH)
}

fn make(root: &Path, name: &str) {
    let made = Command::new("rt")
        .arg("lib")
        .current_dir(root.join("crates").join(name))
        .output()
        .expect("rt is on the path");
    assert!(
        made.status.success(),
        "rt lib in crates/{name}:\n{}{}",
        String::from_utf8_lossy(&made.stdout),
        String::from_utf8_lossy(&made.stderr)
    );
}

/// Has cargo link the library of the crate, made anew if it is older than a source.
fn link(name: &str) {
    let here = PathBuf::from(env::var_os("CARGO_MANIFEST_DIR").expect("cargo sets it"));
    let root = here.join("../..");
    let folder = root.join("crates").join(name).join("out");
    let archive = folder.join(format!("lib{name}.a"));
    let sources = sources(&root, name);
    if !archive.exists() || sources.iter().any(|path| changed(path) > changed(&archive)) {
        make(&root, name);
    }
    for path in sources.iter().chain([&archive]) {
        println!("cargo:rerun-if-changed={}", path.display());
    }
    println!("cargo:rustc-link-search=native={}", folder.display());
    println!("cargo:rustc-link-lib=static={name}");
}
