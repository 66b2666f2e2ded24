// Holds: the functions of the code, which functions each calls, and whether its body divides.
// Rests on: names, tree.

use crate::names;
use crate::tree::{crates, files, read};
use std::collections::{BTreeMap, BTreeSet};
use std::path::Path;

/// A function by its crate and its name. Functions of one crate that have one name count as one.
pub type Named = (String, String);

/// What a body calls: what stands before the name, `books` of `books::change`, and whether it is called as a method.
#[derive(Clone, Debug, PartialEq, Eq)]
struct Call {
    before: Option<String>,
    name: String,
    method: bool,
}

/// What no crate here declares, and what does not divide: of the language, and of its library std.
const OUTSIDE: [&str; 20] = [
    "all",
    "any",
    "copied",
    "default",
    "enumerate",
    "from",
    "get",
    "is_some",
    "iter",
    "iter_mut",
    "leading_zeros",
    "len",
    "map",
    "position",
    "rev",
    "take",
    "unsigned_abs",
    "unwrap_or",
    "unwrap_or_default",
    "wrapping_sub",
];

/// A line of code without its comment.
fn code(line: &str) -> &str {
    line.split("//").next().unwrap_or("")
}

/// The name of the function that a line begins.
fn begins(line: &str) -> Option<&str> {
    let words = code(line).trim_start();
    let rest = ["pub extern \"C\" fn ", "pub fn ", "fn "]
        .iter()
        .find_map(|mark| words.strip_prefix(mark))?;
    rest.split(['(', '<']).next()
}

/// Whether a line that begins a function takes the value that it is a method of.
fn takes_self(line: &str) -> bool {
    let first = line.split_once('(').map_or("", |(_, rest)| rest);
    let first = first.trim_start_matches('&').trim_start_matches("mut ");
    first.starts_with("self")
}

/// A function as its file has it: its name, whether it is a method, and its body. The contract is left out: it may divide.
struct Written {
    name: String,
    method: bool,
    body: String,
}

fn written(text: &str) -> Vec<Written> {
    let mut found: Vec<Written> = Vec::new();
    let mut end = None;
    for line in text.lines() {
        let indent = line.len() - line.trim_start().len();
        let opens = line.trim() == "{" || begins(line).is_some() && line.ends_with('{');
        if let Some(name) = begins(line) {
            found.push(Written {
                name: name.to_string(),
                method: takes_self(line),
                body: String::new(),
            });
        }
        if opens {
            end = Some(format!("{}}}", " ".repeat(indent)));
        } else if end.as_deref() == Some(line) {
            end = None;
        } else if let (Some(_), Some(last)) = (&end, found.last_mut()) {
            last.body.push_str(code(line));
            last.body.push('\n');
        }
    }
    found
}

/// Whether a body divides, takes a remainder or shifts to the right.
fn divides(body: &str) -> bool {
    ["/", "%", ">>"].iter().any(|sign| body.contains(sign))
}

/// The word that a text ends with, with what stands before it.
fn last_word(text: &str) -> (&str, &str) {
    let start = text
        .rfind(|c: char| !c.is_alphanumeric() && c != '_')
        .map_or(0, |at| at + 1);
    text.split_at(start)
}

/// What a body calls: each word before a parenthesis, but for what makes a value of an enum.
fn calls(body: &str) -> Vec<Call> {
    let opens = body.match_indices('(').map(|(at, _)| &body[..at]);
    let parts = opens.map(last_word);
    // a name that begins with a capital makes a value of an enum
    let named = parts.filter(|(_, name)| name.starts_with(|c: char| c.is_lowercase() || c == '_'));
    named
        .map(|(rest, name)| Call {
            before: rest
                .strip_suffix("::")
                .map(|path| last_word(path).1.to_string()),
            name: name.to_string(),
            method: rest.ends_with('.'),
        })
        .collect()
}

/// The crates that the items `use CRATE::NAME;` of a file bring names from.
fn brought(text: &str) -> BTreeMap<String, String> {
    let all = names::brought(text);
    let paths = all.iter().filter_map(|path| path.split_once("::"));
    paths
        .filter_map(|(own, path)| Some((path.split("::").last()?.to_string(), own.to_string())))
        .collect()
}

/// The functions of all crates: what each calls, and whether it divides.
pub struct Functions {
    below: BTreeMap<String, BTreeSet<String>>,
    all: BTreeMap<Named, Function>,
}

#[derive(Default)]
struct Function {
    method: bool,
    calls: Vec<Call>,
    brought: BTreeMap<String, String>,
    divides: bool,
}

impl Functions {
    /// Those of all crates of the repository.
    pub fn read(root: &Path) -> Functions {
        let below = crates(root);
        let paths = below.keys().flat_map(|own| {
            let paths = files(root, own, "src", ".rt").into_iter();
            paths.map(move |path| (own.clone(), read(&path)))
        });
        let texts: Vec<(String, String)> = paths.collect();
        Functions::of(below, &texts)
    }

    /// Those of crates, each with all that it names as below it, and of their files, each with its crate.
    pub fn of(below: BTreeMap<String, BTreeSet<String>>, texts: &[(String, String)]) -> Functions {
        let mut all: BTreeMap<Named, Function> = BTreeMap::new();
        for (own, text) in texts {
            for Written { name, method, body } in written(text) {
                let function = all.entry((own.clone(), name)).or_default();
                function.method |= method;
                function.calls.extend(calls(&body));
                function.brought.extend(brought(text));
                function.divides |= divides(&body);
            }
        }
        Functions { below, all }
    }

    /// The functions that a call of a crate can mean: by its path, as a method of any crate below, or by its bare name.
    fn meant(&self, own: &str, function: &Function, call: &Call) -> Vec<Named> {
        let here = own.to_string();
        let below = self.below.get(own).into_iter().flatten().cloned();
        let places: Vec<String> = match &call.before {
            Some(before) if self.below.contains_key(before) => vec![before.clone()],
            None if call.method => below.chain([here]).collect(),
            None => vec![function.brought.get(&call.name).cloned().unwrap_or(here)],
            Some(_) => vec![here],
        };
        let named = places.into_iter().map(|place| (place, call.name.clone()));
        named
            .filter(|named| {
                self.all
                    .get(named)
                    .is_some_and(|it| it.method >= call.method)
            })
            .collect()
    }

    /// The functions that those named reach, themselves among them; or what is called and found nowhere.
    pub fn reached(&self, from: &[(&str, &str)]) -> Result<BTreeSet<Named>, String> {
        let mut found = BTreeSet::new();
        let mut open: Vec<Named> = from
            .iter()
            .map(|(own, name)| (own.to_string(), name.to_string()))
            .collect();
        while let Some(named) = open.pop() {
            let function = self.all.get(&named).ok_or(format!("no {named:?}"))?;
            for call in &function.calls {
                let meant = self.meant(&named.0, function, call);
                if meant.is_empty() && !OUTSIDE.contains(&call.name.as_str()) {
                    return Err(format!("{named:?} calls {call:?}, which is no function"));
                }
                open.extend(meant.into_iter().filter(|next| !found.contains(next)));
            }
            found.insert(named);
        }
        Ok(found)
    }

    pub fn divides(&self, named: &Named) -> bool {
        self.all[named].divides
    }
}
