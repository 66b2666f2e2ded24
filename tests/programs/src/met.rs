// Holds: what a comparison of look-ups has met, counted by name.
// Rests on: counts, pairs, programs; the model's boards and causes.

use crate::counts::Counts;
use crate::pairs::{edges, places, Pair, Request, MUCH};
use crate::programs::refusal_of;
use model::lookup::{LINE, PAIRS};
use model::numbers::fitted;
use model::{Board, Cause, ACCOUNTS, POSTINGS};
use std::collections::BTreeSet;

/// How many pairs an accepted look-up may have.
pub const NUMBERS: [&str; 6] = [
    "0 pairs",
    "1 pair",
    "2 pairs",
    "3 to 254 pairs",
    "255 pairs",
    "256 pairs",
];

/// What there may be on the board of a look-up that is accepted. The site that is down has a record.
pub const ON_BOARD: [&str; 5] = [
    "messages in flight",
    "a site that is down named",
    "an empty record named",
    "a full record named",
    "a record not named",
];

/// What its lines may have in their four places.
pub const FIGURES: [&str; LINE] = ["a position", "a rate", "called", "settled"];

/// Each of the causes of refusal 18 without the others.
pub const ALONE: [&str; 3] = [
    "too many pairs alone",
    "an account above 15 alone",
    "a short slice alone",
];

/// What a changed board is. With other lines, what the same look-up gives is not what it was before the change.
pub const CHANGED: [&str; 3] = ["sound", "unsound", "other lines"];

/// What is counted of a request, whatever the board holds.
fn facts(request: &Request, n: u8) -> Vec<String> {
    let pairs = request.pairs();
    let mut facts = vec![number(pairs.len()), slice(request)];
    facts.extend((request.bytes.len() % 2 == 1).then_some("an odd byte"));
    facts.extend(order(pairs, n));
    facts.extend(causes(request));
    let mut facts: Vec<String> = facts.into_iter().map(String::from).collect();
    for (place, range) in places(pairs.len()) {
        for (edge, byte, value) in edges(n) {
            let mut there = range.clone().map(|k| pairs[k][byte]);
            facts.extend(there.any(|x| x == value).then(|| at(edge, place)));
        }
    }
    facts
}

pub fn at(edge: &str, place: &str) -> String {
    format!("{edge} in {place}")
}

fn number(count: usize) -> &'static str {
    match count {
        0..=2 => NUMBERS[count],
        3..=254 => NUMBERS[3],
        255 | 256 => NUMBERS[count - 251],
        257 => "257 pairs",
        _ => "more pairs",
    }
}

fn slice(request: &Request) -> &'static str {
    let exact = LINE * request.pairs().len();
    match request.room {
        room if room == exact => "an exact slice",
        room if room >= exact + MUCH => "a much longer slice",
        room if room > exact => "a longer slice",
        room if room + 1 == exact => "a slice one short",
        0 => "an empty slice",
        _ => "a shorter slice",
    }
}

/// Which sites are named, in which order, and which pairs are equal.
fn order(pairs: &[Pair], n: u8) -> Vec<&'static str> {
    let sites: BTreeSet<u8> = pairs.iter().map(|pair| pair[0]).collect();
    let mut names = Vec::new();
    match sites.len() {
        1 if pairs.len() > 1 => names.push("one site often"),
        some if some == n.into() => names.push("all sites"),
        some if some > 1 => names.push("some sites"),
        _ => {}
    }
    let falls = |two: &[Pair]| two[0][0] > two[1][0];
    let rises = |two: &[Pair]| two[0][0] < two[1][0];
    if pairs.windows(2).any(falls) && pairs.windows(2).any(rises) {
        names.push("sites out of order");
    }
    let all_equal = pairs.len() > 1 && pairs.iter().all(|pair| *pair == pairs[0]);
    let again = |k: usize| pairs[k] != pairs[k - 1] && pairs[..k].contains(&pairs[k]);
    if all_equal {
        names.push("all pairs equal");
    } else if (1..pairs.len()).any(again) {
        names.push("equal pairs apart");
    }
    names
}

/// The cause of refusal 18, if there is one alone, or that there are several.
fn causes(request: &Request) -> Option<&'static str> {
    let pairs = request.pairs();
    let causes = [
        pairs.len() > PAIRS,
        pairs.iter().any(|pair| usize::from(pair[1]) >= ACCOUNTS),
        request.room < LINE * pairs.len(),
    ];
    match causes {
        [false, false, false] => None,
        [true, false, false] => Some(ALONE[0]),
        [false, true, false] => Some(ALONE[1]),
        [false, false, true] => Some(ALONE[2]),
        _ => Some("several causes of 18"),
    }
}

/// Counts a look-up with its answer; n is that of the board, if there is one.
pub fn add_request(counts: &mut Counts, request: &Request, n: u8, answer: u64) {
    let refused = |number| format!("refused {number}");
    let answer = refusal_of(answer).map_or("accepted".to_string(), refused);
    for fact in facts(request, n) {
        counts.add(format!("{answer}: {fact}"));
    }
    counts.add(answer);
    counts.add("look-ups");
}

/// Counts what a look-up that was accepted met on its board.
pub fn add_board(counts: &mut Counts, request: &Request, board: &Board) {
    let n = usize::from(board.n);
    let is_named = |s: &usize| {
        request
            .pairs()
            .iter()
            .any(|pair| usize::from(pair[0]) == *s)
    };
    let (named, others): (Vec<usize>, Vec<usize>) = (0..n).partition(is_named);
    let length = |s: &usize| board.sites[*s].record.len();
    let met = [
        !board.flight.messages(board.up()).is_empty(),
        named.iter().any(|s| !board.is_up(*s) && length(s) > 0),
        named.iter().any(|s| length(s) == 0),
        named.iter().any(|s| length(s) == POSTINGS),
        others.iter().any(|s| length(s) > 0),
    ];
    for (name, met) in ON_BOARD.into_iter().zip(met) {
        if met {
            counts.add(name);
        }
    }
    counts.add(of_sites(n));
}

pub fn of_sites(n: usize) -> String {
    format!("{n} sites")
}

/// Counts which figures other than 0 the lines of an accepted look-up have.
pub fn add_lines(counts: &mut Counts, lines: &[i64]) {
    for (k, name) in FIGURES.into_iter().enumerate() {
        if lines.chunks(LINE).any(|line| line[k] != 0) {
            counts.add(name);
        }
    }
}

/// Counts a change to the row before a look-up, and why the board is unsound with it, if it is.
pub fn add_change(counts: &mut Counts, (place, value): (u64, u64), cause: Option<Cause>) {
    counts.add(match cause {
        Some(_) => "changed, unsound",
        None => "changed, sound",
    });
    if let Some(cause) = cause {
        counts.add(format!("{cause:?}"));
    }
    if value != fitted(place as usize, value) {
        counts.add("too wide");
    }
}
