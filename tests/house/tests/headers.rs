// Holds: every file of code, definitions and laws opens with what it holds and what it rests on, and rests on what it says.
// Rests on: house.

use house::headers::Place;
use house::tree::{crates, files, read, root};
use std::collections::{BTreeMap, BTreeSet};

const PARTS: [(&str, &str); 3] = [("src", ".rt"), ("specs", ".antt"), ("proofs", ".antt")];

#[test]
fn every_file_says_what_it_rests_on() {
    let root = root();
    let crates = crates(&root);
    let mut paths = Vec::new();
    let mut modules: BTreeMap<String, BTreeSet<String>> = BTreeMap::new();
    for own in crates.keys() {
        for (part, ending) in PARTS {
            for path in files(&root, own, part, ending) {
                let stem = path.file_stem().expect("a file").to_string_lossy();
                modules
                    .entry(stem.into_owned())
                    .or_default()
                    .insert(own.clone());
                paths.push((own, path));
            }
        }
    }
    let mut found = Vec::new();
    for (own, path) in &paths {
        let place = Place {
            own,
            modules: &modules,
            crates: &crates,
        };
        found.extend(place.faults(path, &read(path)));
    }
    assert!(found.is_empty(), "{}", found.join("\n"));
}
