// Holds: how much of each thing a comparison of look-ups must meet, and its counts as one line.
// Rests on: met, counts, pairs; the model's causes.

use crate::counts::Counts;
use crate::met::{at, of_sites, ALONE, CHANGED, FIGURES, NUMBERS, ON_BOARD};
use crate::pairs::{edges, places};
use model::{CAUSES, SITES};

/// What was met too seldom.
pub fn missing(counts: &Counts) -> Vec<String> {
    counts.short_of(needed())
}

/// How often each thing must be met at least.
fn needed() -> Vec<(String, u64)> {
    let mut needed = needed_of_refusals();
    let mut add = |least: u64, name: &str| needed.push((name.to_string(), least));
    add(10_000, "look-ups");
    NUMBERS
        .iter()
        .for_each(|name| add(100, &format!("accepted: {name}")));
    let slices = ["an exact slice", "a longer slice", "a much longer slice"];
    let orders = [
        "one site often",
        "some sites",
        "all sites",
        "sites out of order",
        "all pairs equal",
        "equal pairs apart",
    ];
    for name in slices.iter().chain(&orders).chain(&["an odd byte"]) {
        add(100, &format!("accepted: {name}"));
    }
    ON_BOARD.iter().for_each(|name| add(100, name));
    FIGURES.iter().for_each(|name| add(300, name));
    (3..=SITES).for_each(|n| add(500, &of_sites(n)));
    for name in CHANGED {
        add(300, &format!("changed, {name}"));
    }
    CAUSES
        .iter()
        .for_each(|cause| add(20, &format!("{cause:?}")));
    for way in ["past the last", "too wide"] {
        add(100, way);
    }
    needed
}

/// Each refusal, and those of look-ups by what they are for and in which pair that stands.
fn needed_of_refusals() -> Vec<(String, u64)> {
    let mut needed = Vec::new();
    let mut add = |least: u64, name: &str| needed.push((name.to_string(), least));
    (1..=7)
        .chain([18])
        .for_each(|number| add(100, &format!("refused {number}")));
    ALONE
        .iter()
        .for_each(|cause| add(100, &format!("refused 18: {cause}")));
    for name in ["257 pairs", "a slice one short", "an empty slice"] {
        add(100, &format!("refused 18: {name}"));
    }
    for number in [6, 7] {
        add(100, &format!("refused {number}: several causes of 18"));
    }
    for (place, _) in places(0) {
        for (edge, _, _) in edges(SITES as u8) {
            let answer = match edge {
                "site n - 1" | "account 15" => "accepted",
                "account 16" | "account 255" => "refused 18",
                _ => "refused 7",
            };
            if answer != "accepted" || place != "a pair behind the 256th" {
                add(20, &format!("{answer}: {}", at(edge, place)));
            }
        }
    }
    needed
}

/// One line that tells the most.
pub fn line(counts: &Counts) -> String {
    let [files, all, accepted] = ["files", "look-ups", "accepted"].map(|name| counts.of(name));
    let by_number = NUMBERS.map(|name| (name.to_string(), format!("accepted: {name}")));
    let by_number = counts.each(by_number);
    let numbers = (1..=7).chain([18]);
    let refused = counts.each(numbers.map(|k| (k.to_string(), format!("refused {k}"))));
    let alone = counts.each(ALONE.map(|name| (name.to_string(), format!("refused 18: {name}"))));
    let met = ON_BOARD.iter().chain(&FIGURES);
    let met = counts.each(met.map(|name| (name.to_string(), name.to_string())));
    let changed = counts.each(CHANGED.map(|name| (name.to_string(), format!("changed, {name}"))));
    format!(
        "look-ups: {all} on {files} files, {accepted} accepted: {by_number}; with {met}; \
         refused {refused}, of the last {alone}; boards changed: {changed}"
    )
}
