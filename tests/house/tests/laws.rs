// Holds: every law and definition is used, or is a theorem that docs/CLAIMS.md names; and that uses are found out rightly, in small.
// Rests on: house and docs/CLAIMS.md.

use house::clauses::said;
use house::laws::{count, unused};
use house::tree::{all_files, crates, files, read, root};

#[test]
fn what_nothing_uses_is_claimed() {
    let root = root();
    // Beside these parts of a crate lies what rt makes of them.
    let paths = crates(&root).into_keys().flat_map(|own| {
        let folder = root.join("crates").join(own);
        ["src", "specs", "proofs"].map(|part| all_files(&folder.join(part)))
    });
    let texts: Vec<String> = paths
        .flatten()
        .map(|path| (read(&path), path))
        .flat_map(|(text, path)| match path.extension() {
            Some(ending) if ending == "rt" => said(&text).into_iter().map(|it| it.text).collect(),
            _ => vec![text],
        })
        .collect();
    let counts = count(texts.iter().map(String::as_str));
    let claims = read(&root.join("docs/CLAIMS.md"));
    let mut found = Vec::new();
    for own in crates(&root).keys() {
        for part in ["specs", "proofs"] {
            for path in files(&root, own, part, ".antt") {
                let names = unused(&read(&path), &counts);
                let idle = names
                    .into_iter()
                    .filter(|name| !claims.contains(&format!("`{name}`")));
                found.extend(idle.map(|name| format!("{}: {name}", path.display())));
            }
        }
    }
    assert!(found.is_empty(), "{}", found.join("\n"));
}

/// A function in small. Its name, that of its clause and what its body says are spelled as definitions may be.
const CODE: &str = "// law
#[tactic(auto, using(Rattle.below.proofs.Laws.law))]
fn size(half: u64) -> u64
    ensures value { result ≡ part
        half }
{
    size(below)
}
";

#[test]
fn of_code_only_what_is_said_to_the_proof_counts() {
    let texts = said(CODE).into_iter().map(|it| it.text);
    let texts: Vec<String> = texts.collect();
    let counts = count(texts.iter().map(String::as_str));
    let words = ["law", "part", "half", "value", "size", "below"];
    let found = words.map(|word| counts.get(word).copied().unwrap_or(0));
    assert_eq!(found, [1, 1, 1, 0, 0, 0]);
}
