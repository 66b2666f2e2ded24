// Holds: what a comparison of changed boards has met, counted by name, and how much of each it must meet.
// Rests on: called, untaken; the model's calls and causes.

use crate::called::{Asked, Back};
use crate::untaken::REASONS;
use model::{Call, CAUSES};
use std::collections::BTreeMap;

/// How often each thing was met, by its name.
#[derive(Clone, Debug, Default, PartialEq, Eq)]
pub struct Counts(BTreeMap<String, u64>);

const FORMS: [&str; 4] = ["FIRST", "SECOND", "THIRD", "DELIVER"];

/// The refusals that each call can meet.
const CALLS: [(&str, &[u64]); 7] = [
    ("offer", &[6, 7, 8, 9, 10, 14, 15]),
    ("receive", &[6, 7, 8, 11, 14, 15]),
    ("order", &[6, 12]),
    ("read", &[6, 7, 8, 13, 14, 15]),
    ("crash", &[6, 7, 8, 14]),
    ("drain", &[6]),
    ("books", &[6, 16]),
];

/// The name of a call.
fn name(asked: &Asked) -> &'static str {
    match asked {
        Asked::Drain(_) => "drain",
        Asked::Books => "books",
        Asked::Event(Call::Offer { .. }) => "offer",
        Asked::Event(Call::Receive { .. }) => "receive",
        Asked::Event(Call::Order { .. }) => "order",
        Asked::Event(Call::Read { .. }) => "read",
        Asked::Event(Call::Crash { .. }) => "crash",
    }
}

/// What an accepted call is counted as besides: a receipt by its form, a cut, and how a drain ended.
fn details(asked: &Asked, back: &Back) -> Vec<String> {
    let mut names = Vec::new();
    if let Asked::Event(Call::Receive { form, cut, .. }) = asked {
        let cut = if cut.is_some() { " cut" } else { "" };
        names.push(format!("{}{cut}", FORMS[*form as usize]));
    }
    match asked {
        Asked::Event(Call::Offer { cut: Some(_), .. }) => names.push("offer cut".to_string()),
        Asked::Event(Call::Read { cut: Some(_), .. }) => names.push("read cut".to_string()),
        Asked::Drain(_) => {
            names.push(["drain quiet", "drain spent"][back.more[0] as usize].to_string())
        }
        _ => {}
    }
    names
}

impl Counts {
    pub fn add(&mut self, name: impl Into<String>) {
        *self.0.entry(name.into()).or_default() += 1;
    }

    pub fn join(&mut self, other: Counts) {
        for (name, count) in other.0 {
            *self.0.entry(name).or_default() += count;
        }
    }

    pub fn of(&self, name: &str) -> u64 {
        self.0.get(name).copied().unwrap_or(0)
    }

    /// Counts a call on a board that was really changed.
    pub fn add_call(&mut self, asked: &Asked, back: &Back) {
        self.add("changed");
        self.add(match back.cause {
            Some(cause) => format!("{cause:?}"),
            None => "sound".to_string(),
        });
        let name = name(asked);
        if back.answer != 0 {
            self.add(format!("refused {}", back.answer));
            self.add(format!("{name} refused {}", back.answer));
            return;
        }
        self.add("accepted");
        self.add(format!("{name} accepted"));
        for detail in details(asked, back) {
            self.add(detail);
        }
    }

    /// What was met too seldom.
    pub fn missing(&self) -> Vec<String> {
        self.short_of(needed())
    }

    /// What was met less often than it is needed.
    pub(crate) fn short_of(&self, needed: Vec<(String, u64)>) -> Vec<String> {
        let short = needed
            .into_iter()
            .filter(|(name, least)| self.of(name) < *least);
        short
            .map(|(name, least)| format!("{name}: {} of {least}", self.of(&name)))
            .collect()
    }

    /// The counts of some things, each with a name to show it by and the name that it is counted by.
    pub(crate) fn each(&self, names: impl IntoIterator<Item = (String, String)>) -> String {
        let counted = names
            .into_iter()
            .map(|(shown, name)| format!("{shown} {}", self.of(&name)));
        counted.collect::<Vec<String>>().join(", ")
    }

    /// One line that tells the most.
    pub fn line(&self) -> String {
        let causes = CAUSES.map(|cause| (format!("{cause:?}"), format!("{cause:?}")));
        let refused = (6..=16).map(|k| (k.to_string(), format!("refused {k}")));
        let untaken = REASONS.map(|reason| (reason.to_string(), reason.to_string()));
        let [files, changed, sound, accepted] =
            ["files", "changed", "sound", "accepted"].map(|name| self.of(name));
        let causes = self.each(causes);
        let refused = self.each(refused);
        let untaken = self.each(untaken);
        format!(
            "changed boards: {files} files, {changed} changed, {sound} sound, others unsound by {causes}; \
             {accepted} calls accepted, others refused as {refused}; not taken {untaken}"
        )
    }
}

/// How often each thing must be met at least.
fn needed() -> Vec<(String, u64)> {
    let mut needed = Vec::new();
    let mut add = |least: u64, name: &str| needed.push((name.to_string(), least));
    add(20_000, "changed");
    add(5_000, "sound");
    CAUSES
        .iter()
        .for_each(|cause| add(300, &format!("{cause:?}")));
    REASONS.iter().for_each(|reason| add(300, reason));
    for (name, numbers) in CALLS {
        add(200, &format!("{name} accepted"));
        for number in numbers {
            add(20, &format!("{name} refused {number}"));
        }
    }
    for form in FORMS {
        add(200, form);
        add(20, &format!("{form} cut"));
    }
    add(20, "offer cut");
    add(20, "read cut");
    add(200, "drain quiet");
    add(200, "drain spent");
    for way in ["past the last", "too wide", "without change"] {
        add(300, way);
    }
    needed
}
