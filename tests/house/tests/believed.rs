// Holds: what must be believed is what the docs list, stays within its limit, and uses no file of laws.
// Rests on: house, docs/BELIEVED.md and README.md.

use house::believed::{all, audit, audit_of_files, service, statement};
use house::tree::{read, root};

/// The most lines of definitions.
const LIMIT: usize = 1_500;

#[test]
fn the_docs_list_it() {
    let found = all();
    assert!(found.faults.is_empty(), "{}", found.faults.join("\n"));
    let page = read(&root().join("docs/BELIEVED.md"));
    let rows: String = page
        .lines()
        .filter(|line| line.starts_with("| crates/"))
        .map(|line| format!("{line}\n"))
        .collect();
    assert_eq!(
        rows,
        found.table(),
        "docs/BELIEVED.md is not what tests/house prints"
    );
}

#[test]
fn it_stays_within_the_limit() {
    assert!(service().total().defining <= LIMIT);
    assert!(audit_of_files().total().defining <= LIMIT);
}

#[test]
fn the_readme_has_the_count() {
    let page = read(&root().join("README.md"));
    let count = |found: usize| {
        let text = found.to_string();
        match text.len() {
            4 => format!("{},{}", &text[..1], &text[1..]),
            _ => text,
        }
    };
    for found in [statement(), service(), audit(), audit_of_files(), all()] {
        let lines = found.total().defining;
        let said = format!("{} lines", count(lines));
        assert!(page.contains(&said), "README.md does not say {said}");
    }
}
