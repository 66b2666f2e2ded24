// Holds: the public functions whose promises must be believed, and what names their contracts use.
// Rests on: clauses, names.

use crate::clauses::said;
use crate::names::{uses, Source};
use std::collections::{BTreeMap, BTreeSet};

/// The files of those functions, and which of a file's: all exported ones, all methods, or those named.
pub const PROMISED: [(&str, &[&str]); 9] = [
    ("crates/exports/src/lib.rt", &[]),
    (
        "crates/machine/src/service.rt",
        &["offer", "receive", "order", "read", "crash"],
    ),
    ("crates/machine/src/sound.rt", &["is_sound"]),
    ("crates/whole_board/src/opening.rt", &["start"]),
    ("crates/whole_board/src/quiet.rt", &["is_quiet"]),
    ("crates/whole_board/src/figures.rt", &["books", "books_all"]),
    ("crates/drain/src/lib.rt", &["drain"]),
    ("crates/runfile/src/run.rt", &["run_file"]),
    ("crates/statements/src/lib.rt", &["statement"]),
];

/// Exported for tests alone: a board with one number changed takes a call, or is looked up. No caller of the service need believe it.
/// Nor yet what balances are looked up by: docs/PORT.md says what of it is unfinished.
pub const FOR_TESTS: [&str; 3] = [
    "board_call_changed",
    "board_lookup_changed",
    "board_run_lookup",
];

/// The audit of records that come from elsewhere. It takes part in no step of the service, and the service in none of it.
pub const AUDIT: [&str; 2] = ["board_audit_records", "board_audit_figures"];

/// The functions that the program `audit` is made of: files read, a refusal said, the report written.
pub const AUDITED: [(&str, &[&str]); 3] = [
    (
        "crates/audit_files/src/files.rt",
        &["read_postings", "read_record"],
    ),
    ("crates/audit_witness/src/refusals.rt", &["put_refused"]),
    ("crates/audit_report/src/lib.rt", &["report"]),
];

/// The name of the function that a line begins, if it is public.
fn begins(line: &str) -> Option<&str> {
    let line = line.trim_start();
    let rest = line
        .strip_prefix("pub extern \"C\" fn ")
        .or_else(|| line.strip_prefix("pub fn "))?;
    rest.split(['(', '<']).next()
}

/// The clauses of each public function's contract.
fn contracts(text: &str) -> Vec<(String, String)> {
    let clauses: BTreeMap<usize, String> = said(text)
        .into_iter()
        .filter(|said| said.clause)
        .map(|said| (said.line, said.text))
        .collect();
    let mut found: Vec<(String, String)> = Vec::new();
    let mut inside = false;
    for (number, line) in text.lines().enumerate() {
        if let Some(name) = begins(line) {
            found.push((name.to_string(), String::new()));
            inside = true;
        }
        if line.trim() == "{" {
            inside = false;
        }
        let clause = clauses.get(&number);
        if let (true, Some(clause), Some((_, contract))) = (inside, clause, found.last_mut()) {
            contract.push_str(clause);
        }
    }
    found
}

/// The words of a contract.
fn words(contract: &str) -> BTreeSet<&str> {
    contract
        .split(|c: char| c.is_whitespace() || "(){}.,;".contains(c))
        .collect()
}

/// Where the names of the contracts of a file come from.
pub fn sources(text: &str, wanted: &[&str], without: &[&str]) -> BTreeSet<Source> {
    let contracts = contracts(text);
    for name in wanted {
        assert!(
            contracts.iter().any(|(own, _)| own == name),
            "no public function {name}"
        );
    }
    let picked = contracts
        .iter()
        .filter(|(name, _)| wanted.is_empty() || wanted.contains(&name.as_str()))
        .filter(|(name, _)| !without.contains(&name.as_str()));
    let said: BTreeSet<&str> = picked.flat_map(|(_, contract)| words(contract)).collect();
    let lines = uses(text).into_iter();
    lines
        .filter(|line| line.names.iter().any(|name| said.contains(name.as_str())))
        .map(|line| line.source)
        .collect()
}
