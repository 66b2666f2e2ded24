// Holds: the C programs of examples/c, built and run, and the lines of books read back as figures.
// Rests on: cc and c++ on the path, the static library that build.rs sees to, model for the count of figures.

use crate::path;
use model::FIGURES;
use std::path::{Path, PathBuf};
use std::process::{Command, Output};

/// A compiler with its words for the header's language.
pub const C: [&str; 4] = ["cc", "-std=c99", "-x", "c"];
pub const CPP: [&str; 4] = ["c++", "-std=c++11", "-x", "c++"];

/// A call of the compiler that takes every warning for an error.
pub fn compiler(of: [&str; 4]) -> Command {
    let mut command = Command::new(of[0]);
    command.args(["-Wall", "-Wextra", "-Werror", "-O2", "-I"]);
    command.arg(path("include")).args(&of[1..]);
    command
}

pub fn succeeded(command: &mut Command) -> Output {
    let output = command.output().expect("the compiler is on the path");
    assert!(
        output.status.success(),
        "{command:?}:\n{}",
        String::from_utf8_lossy(&output.stderr)
    );
    output
}

/// The program `books`, built under this name in the folder.
pub fn built(of: [&str; 4], folder: &str, name: &str) -> PathBuf {
    built_from("examples/c/books.c", of, folder, name)
}

/// The program of a source, built under this name in the folder.
pub fn built_from(source: &str, of: [&str; 4], folder: &str, name: &str) -> PathBuf {
    let program = Path::new(folder).join(name);
    let library = path("crates/exports/out/libexports.a");
    let mut command = compiler(of);
    command.arg(path(source));
    command.args(["-x", "none"]).arg(library);
    succeeded(command.arg("-o").arg(&program));
    program
}

/// What the program prints for a run file, with the most events of the drain if they are given, and how it ends.
pub fn run(program: &Path, file: &Path, events: Option<&str>) -> Output {
    let output = Command::new(program).arg(file).args(events).output();
    output.expect("the program was built")
}

/// The numbers of a line, in order.
fn numbers(line: &str) -> Vec<i64> {
    let parts = line.split(|c: char| !c.is_ascii_digit() && c != '-');
    parts.filter_map(|part| part.parse().ok()).collect()
}

/// The count of the drain and the books of all sites, as the lines after the run's say.
pub fn read_back(lines: &str) -> (u64, Vec<i64>) {
    let mut lines = lines.lines();
    let first = lines.next().expect("there is a line about the drain");
    assert!(first.starts_with("After a drain of "), "{first}");
    let mut figures: Vec<i64> = Vec::new();
    for line in lines {
        let said = numbers(line);
        let site = said[0] as usize;
        let begun = figures.len() / FIGURES;
        assert!(site == begun || site + 1 == begun, "{line}");
        figures.resize(FIGURES * (site + 1), 0);
        if line == format!("site {site}: no figures") {
            continue;
        }
        let [_, account, position, rate, 10, 0, called, settled] = said[..] else {
            panic!("{line}");
        };
        let words = format!("site {site}, account {account}: position {position} cents, rate {rate} per 10,000, called {called} cents, settled {settled} cents");
        assert_eq!(line, words);
        let at = FIGURES * site + 4 * account as usize;
        figures[at..at + 4].copy_from_slice(&[position, rate, called, settled]);
    }
    (numbers(first)[0] as u64, figures)
}
