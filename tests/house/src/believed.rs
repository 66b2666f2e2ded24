// Holds: the files that must be believed: those of the statements of demand 3 and of W12, of the public promises, and of the audit, with all that
// they use.
// Rests on: names, promises, tree.

use crate::names::{uses, Source};
use crate::promises::{sources, AUDIT, AUDITED, FOR_TESTS, PROMISED};
use crate::tree::{files, read, root};
use std::collections::BTreeMap;

/// The statement that the books agree.
const STATEMENT: [&str; 2] = [
    "crates/agreement/specs/Agreement.antt",
    "crates/agreement/specs/Drains.antt",
];

/// The statement of one account at a time.
const ACCOUNTS: &str = "crates/agreement/specs/Accounts.antt";

/// The statement that the service's own records pass the audit.
const PASSES: &str = "crates/audit_machine/specs/Passes.antt";

/// The file of the exported functions.
const EXPORTS: &str = "crates/exports/src/lib.rt";

/// Of a file, or of the types that one declares: its lines, and those of them that define something.
#[derive(Clone, Copy, Debug, Default, PartialEq, Eq)]
pub struct Lines {
    pub all: usize,
    pub defining: usize,
}

/// What must be believed, by file.
#[derive(Clone, Debug, Default)]
pub struct Believed {
    pub files: BTreeMap<String, Lines>,
    pub faults: Vec<String>,
}

/// A line that is neither empty, nor a comment, nor brings in names.
fn defines(line: &str) -> bool {
    let line = line.trim();
    let other = ["--", "//", "use ", "ghost use ", "pub mod "];
    !line.is_empty() && !other.iter().any(|start| line.starts_with(start))
}

fn count(text: &str) -> Lines {
    Lines {
        all: text.lines().count(),
        defining: text.lines().filter(|line| defines(line)).count(),
    }
}

/// The struct or the enum of that name in a file of code, up to its closing brace.
fn declaration(text: &str, name: &str) -> Option<String> {
    let starts = [
        format!("pub struct {name} {{"),
        format!("pub enum {name} {{"),
    ];
    let from = text
        .lines()
        .position(|line| starts.iter().any(|start| line == start))?;
    let lines: Vec<&str> = text.lines().skip(from).collect();
    let to = lines.iter().position(|line| *line == "}")?;
    Some(lines[..=to].join("\n"))
}

impl Believed {
    fn fault(&mut self, text: String) {
        self.faults.push(text);
    }

    /// A type that the code of a crate declares.
    fn take_type(&mut self, source: &Source) {
        let root = root();
        for path in files(&root, &source.name, "src", ".rt") {
            if let Some(text) = declaration(&read(&path), &source.module) {
                let label = format!("crates/{}/src: {}", source.name, source.module);
                self.files.insert(label, count(&text));
                return;
            }
        }
        self.fault(format!("no type {} in {}", source.module, source.name));
    }

    /// A file of definitions, and all that it uses.
    fn take_file(&mut self, path: String) {
        if self.files.contains_key(&path) {
            return;
        }
        let text = read(&root().join(&path));
        self.files.insert(path.clone(), count(&text));
        for line in uses(&text) {
            self.take(&path, &line.source);
        }
    }

    fn take(&mut self, by: &str, source: &Source) {
        if source.declared {
            self.take_type(source);
        } else if source.part == "specs" {
            self.take_file(format!(
                "crates/{}/specs/{}.antt",
                source.name, source.module
            ));
        } else {
            self.fault(format!(
                "{by} uses {} of {}'s proofs",
                source.module, source.name
            ));
        }
    }

    pub fn total(&self) -> Lines {
        self.files
            .values()
            .fold(Lines::default(), |sum, own| Lines {
                all: sum.all + own.all,
                defining: sum.defining + own.defining,
            })
    }

    /// A row a file, as the docs have them.
    pub fn table(&self) -> String {
        let row = |(name, lines): (&String, &Lines)| {
            format!("| {name} | {} | {} |\n", lines.defining, lines.all)
        };
        self.files.iter().map(row).collect()
    }
}

/// Of the statement of demand 3 alone.
pub fn statement() -> Believed {
    let mut found = Believed::default();
    for path in STATEMENT {
        found.take_file(path.to_string());
    }
    found
}

/// Of both statements and of the public promises, without those of some functions.
fn promised(without: &[&str]) -> Believed {
    let mut found = statement();
    found.take_file(ACCOUNTS.to_string());
    for (path, wanted) in PROMISED {
        let text = read(&root().join(path));
        for source in sources(&text, wanted, without) {
            found.take(path, &source);
        }
    }
    found
}

/// Of both statements and of every promise of the service.
pub fn service() -> Believed {
    promised(&[FOR_TESTS.as_slice(), AUDIT.as_slice()].concat())
}

/// Of the audit alone: the promises of its functions.
pub fn audit() -> Believed {
    let mut found = Believed::default();
    let text = read(&root().join(EXPORTS));
    for source in sources(&text, &AUDIT, &[]) {
        found.take(EXPORTS, &source);
    }
    found
}

/// The promises of the program `audit`, taken to what is there.
fn take_program(found: &mut Believed) {
    for (path, wanted) in AUDITED {
        let text = read(&root().join(path));
        for source in sources(&text, wanted, &[]) {
            found.take(path, &source);
        }
    }
}

/// Of the audit alone, with its program: files and the report.
pub fn audit_of_files() -> Believed {
    let mut found = audit();
    take_program(&mut found);
    found
}

/// All: the service, what is exported for tests, and the audit.
pub fn all() -> Believed {
    let mut found = promised(&[]);
    take_program(&mut found);
    found.take_file(PASSES.to_string());
    found
}
