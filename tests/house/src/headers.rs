// Holds: whether a file opens with what it holds and what it rests on, and whether that is what it uses.
// Rests on: names, tree.

use crate::names::{brought, uses};
use std::collections::{BTreeMap, BTreeSet};
use std::path::Path;

/// Each crate, with those that it names as below it.
pub type Crates = BTreeMap<String, BTreeSet<String>>;

/// A file to look at: its crate, the modules of that crate, and the crates that have each module.
pub struct Place<'a> {
    pub own: &'a str,
    pub modules: &'a BTreeMap<String, BTreeSet<String>>,
    pub crates: &'a Crates,
}

/// The comment that a file opens with, a line each, without its marks.
fn opening(text: &str) -> Vec<&str> {
    let marks = ["-- ", "// "];
    text.lines()
        .map_while(|line| marks.iter().find_map(|mark| line.strip_prefix(mark)))
        .collect()
}

/// What follows the words "Rests on", up to the end of the sentence.
fn rests(text: &str) -> Option<String> {
    let said = opening(text).join(" ");
    let (_, rest) = said.split_once("Rests on ")?;
    let end = rest.find(". ").unwrap_or(rest.trim_end_matches('.').len());
    Some(rest[..end].to_string())
}

/// What a sentence lists: a word after "on", after "and" or after a comma. Other words only say what for.
fn listed(sentence: &str) -> BTreeSet<String> {
    let mut named = BTreeSet::new();
    let mut lists = true;
    for word in sentence.split_whitespace() {
        let name = word.trim_matches(|c: char| !c.is_alphanumeric() && c != '_');
        let name = name.strip_suffix("'s").unwrap_or(name);
        if lists {
            named.insert(name.to_string());
        }
        lists = ["on", "and"].contains(&word) || word.ends_with(',') || word.ends_with(':');
    }
    named
}

/// The first parts of the paths that a file of code brings in.
fn paths(text: &str) -> BTreeSet<String> {
    let brought = brought(text);
    let paths = brought
        .iter()
        .map(|path| path.strip_prefix("crate::").unwrap_or(path));
    let called = text.split(|c: char| !c.is_alphanumeric() && c != '_' && c != ':');
    let called = called.filter(|word| word.contains("::"));
    let all = paths
        .chain(called)
        .filter_map(|path| path.split("::").next());
    all.map(|name| name.trim_end_matches(';').to_string())
        .collect()
}

/// The crates and the modules that a file uses.
fn used(text: &str) -> (BTreeSet<String>, BTreeSet<String>) {
    let sources: Vec<_> = uses(text).into_iter().map(|line| line.source).collect();
    let names = sources.iter().map(|source| source.name.clone());
    let modules = sources.iter().map(|source| source.module.clone());
    let paths = paths(text);
    (
        names.chain(paths.clone()).collect(),
        modules.chain(paths).collect(),
    )
}

impl Place<'_> {
    fn is_crate(&self, name: &str) -> bool {
        self.crates.contains_key(name)
    }

    fn is_module(&self, name: &str) -> bool {
        self.modules.contains_key(name)
    }

    /// Whether a crate is below another, at any depth.
    fn below(&self, name: &str, top: &str) -> bool {
        let next = self.crates.get(top);
        next.is_some_and(|next| next.contains(name) || next.iter().any(|mid| self.below(name, mid)))
    }

    /// What is wrong with the opening of a file.
    pub fn faults(&self, path: &Path, text: &str) -> Vec<String> {
        let at = path.display();
        if opening(text).len() < 2 {
            return vec![format!("{at}: does not open with two lines")];
        }
        let Some(sentence) = rests(text) else {
            return vec![format!("{at}: does not say what it rests on")];
        };
        let named = listed(&sentence);
        let (crates, modules) = used(text);
        let root = ["Lib.antt", "lib.rt", "main.rt"]
            .iter()
            .any(|name| path.ends_with(name));
        let mut found = Vec::new();
        for name in &named {
            let known = self.is_crate(name) || self.is_module(name);
            let held = crates.contains(name) || modules.contains(name);
            let under = self.below(name, self.own) || self.is_module(name);
            if known && !held && !(root && under) {
                found.push(format!("{at}: rests on {name}, and does not use it"));
            }
        }
        let inner = named.contains("specs") || sentence.contains("the specs");
        let covers = |name: &str| {
            named.iter().any(|top| {
                let homes = self.modules.get(top);
                top == name
                    || self.below(name, top)
                    || homes.is_some_and(|homes| {
                        homes
                            .iter()
                            .any(|home| home == self.own || home == name || self.below(name, home))
                    })
            })
        };
        for name in &crates {
            if self.is_crate(name) && name != self.own && !inner && !covers(name) {
                found.push(format!("{at}: uses {name}, and does not say so"));
            }
        }
        found
    }
}
