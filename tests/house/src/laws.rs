// Holds: the laws and definitions that nothing uses.
// Rests on: std.

use std::collections::BTreeMap;

/// What separates words.
fn separates(c: char) -> bool {
    c.is_whitespace() || "(){}[],;λ|".contains(c)
}

/// The words of a line that is no comment. Of an item that brings in names only those count, and of a path not the crate: they may be spelled
/// as a definition is.
fn words(line: &str) -> impl Iterator<Item = &str> {
    let text = line.trim_start();
    let comment = text.starts_with("--") || text.starts_with("//");
    let brings = text.starts_with("use ") || text.starts_with("ghost use ");
    let text = match text.find(".{") {
        _ if comment => "",
        Some(at) if brings => &text[at..],
        None if brings => "",
        _ => text,
    };
    text.split(separates).flat_map(|path| {
        let inside = path.strip_prefix("Rattle.");
        let rest = inside.map(|rest| rest.split_once('.').map_or("", |(_, rest)| rest));
        rest.unwrap_or(path).split('.')
    })
}

/// How often each word stands in the texts.
pub fn count<'a>(texts: impl Iterator<Item = &'a str>) -> BTreeMap<String, usize> {
    let mut counts = BTreeMap::new();
    for text in texts {
        for word in text.lines().flat_map(words) {
            *counts.entry(word.to_string()).or_default() += 1;
        }
    }
    counts
}

/// The name that a line gives a type to, and the line's indent.
fn named(line: &str) -> Option<(&str, usize)> {
    let text = line.trim_start();
    let indent = line.len() - text.len();
    let marks = ["unfoldable ", "abbrev ", "pub "];
    let text = marks
        .iter()
        .fold(text, |text, mark| text.strip_prefix(mark).unwrap_or(text));
    let name = text.split([' ', ':']).next()?;
    let typed = text[name.len()..].trim_start();
    let starts = name.chars().next().is_some_and(char::is_alphabetic);
    (starts && typed.starts_with(':')).then_some((name, indent))
}

/// Whether a line begins a part of the definition of a name: its type, or one of its equations.
fn defines(line: &str, name: &str, indent: usize) -> bool {
    let text = line.trim_start();
    let own = text
        .split([' ', ':'])
        .skip_while(|word| ["unfoldable", "abbrev", "pub"].contains(word))
        .next();
    line.len() - text.len() == indent && own == Some(name)
}

/// The names at the top of a text that stand nowhere but in their own definition.
pub fn unused(text: &str, counts: &BTreeMap<String, usize>) -> Vec<String> {
    let top = text
        .lines()
        .filter_map(named)
        .filter(|(_, indent)| *indent == 0);
    let alone = top.filter(|(name, indent)| {
        let own = text
            .lines()
            .filter(|line| defines(line, name, *indent))
            .count();
        counts.get(*name).copied().unwrap_or(0) <= own
    });
    alone.map(|(name, _)| name.to_string()).collect()
}
