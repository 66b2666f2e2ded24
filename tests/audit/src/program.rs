// Holds: the program `audit` run on files in a folder of its own, and the plain program on the same files.
// Rests on: files, report; the program, crates/audit/out/audit, made if it is not there.

use crate::{files, report};
use std::path::{Path, PathBuf};
use std::process::Command;
use std::sync::OnceLock;

/// A path of the repository.
pub fn path(name: &str) -> PathBuf {
    Path::new(env!("CARGO_MANIFEST_DIR"))
        .join("../..")
        .join(name)
}

/// The program, proved and built.
pub fn program() -> &'static Path {
    static BUILT: OnceLock<PathBuf> = OnceLock::new();
    BUILT.get_or_init(|| {
        let folder = path("crates/audit");
        let built = folder.join("out/audit");
        if !built.exists() {
            // It is run too, on no files.
            let made = Command::new("rt").arg("run").current_dir(folder).output();
            let said = made.expect("rt is on the path").stderr;
            assert!(built.exists(), "{}", String::from_utf8_lossy(&said));
        }
        built.canonicalize().expect("it is there")
    })
}

/// A folder that is empty, below target.
pub fn folder(name: &str) -> PathBuf {
    let folder = path("target/audit").join(name);
    let _ = std::fs::remove_dir_all(&folder);
    std::fs::create_dir_all(&folder).expect("it can be made");
    folder
}

/// What the program prints on standard output in a folder.
pub fn printed(folder: &Path, words: &[&str]) -> String {
    let ran = Command::new(program())
        .args(words)
        .current_dir(folder)
        .output();
    let output = ran.expect("it runs");
    assert!(output.status.success());
    String::from_utf8(output.stdout).expect("it is text")
}

/// The matrix of an argument; None if it is no number of four hexadecimal digits.
fn matrix(word: &str) -> Option<u16> {
    let digits = &word[2..];
    let hex = !digits.is_empty() && digits.bytes().all(|byte| byte.is_ascii_hexdigit());
    u16::from_str_radix(digits, 16).ok().filter(|_| hex)
}

/// What it must print, by the plain program.
pub fn expected(folder: &Path, words: &[&str]) -> String {
    let (matrix, words) = match words.first() {
        Some(word) if word.starts_with("0x") => (matrix(word), &words[1..]),
        _ => (Some(model::FIXED_PAIRS), words),
    };
    let bytes = |name: &&str| std::fs::read(folder.join(name)).ok();
    let named = words.get(1..).unwrap_or(&[]);
    let records: Vec<Option<Vec<u8>>> = named.iter().map(bytes).collect();
    let postings = words.first().filter(|word| **word != "-").map(bytes);
    let text = match files::read(matrix, postings.as_ref(), &records) {
        Ok(handed) => report::report(&handed, &records),
        Err(refused) if refused.code < 3 => return report::refused(&refused),
        Err(refused) => report::refused(&refused),
    };
    let names = named.iter().enumerate();
    let names: String = names
        .map(|(site, name)| format!("Site {site} is {name}.\n"))
        .collect();
    text + &names
}
