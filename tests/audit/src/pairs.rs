// Holds: a second plain program, quadratic by tables of places: whether no pair is bad, and the answer of the audit.
// Rests on: answer, handed, rule for the words of a finding.

use crate::answer::Answer;
use crate::handed::Handed;
use crate::rule::finding;

/// Where each number first stands in a list, from 1 on; 0 if it does not.
fn places(numbers: usize, list: &[u16]) -> Vec<usize> {
    let mut places = vec![0; numbers];
    for (i, &x) in list.iter().enumerate() {
        if places[usize::from(x)] == 0 {
            places[usize::from(x)] = i + 1;
        }
    }
    places
}

/// What the sites have of a pair.
#[derive(Default)]
struct Seen {
    forth: bool,
    back: bool,
    x_alone: bool,
    y_alone: bool,
}

impl Seen {
    fn of(sites: &[Vec<usize>], x: usize, y: usize) -> Seen {
        let mut seen = Seen::default();
        for places in sites {
            match (places[x], places[y]) {
                (0, 0) => {}
                (_, 0) => seen.x_alone = true,
                (0, _) => seen.y_alone = true,
                (i, j) if i < j => seen.forth = true,
                _ => seen.back = true,
            }
        }
        seen
    }

    /// Crossed, missing either way round, or apart.
    fn bad(&self) -> bool {
        let crossed = self.forth && self.back;
        let missing = self.forth && self.y_alone || self.back && self.x_alone;
        let apart = self.x_alone && self.y_alone && !self.forth && !self.back;
        crossed || missing || apart
    }
}

/// Whether no pair of conflicting postings is bad.
pub fn agree(handed: &Handed) -> bool {
    let numbers = handed.numbers();
    let sites: Vec<Vec<usize>> = (0..handed.ends.len())
        .map(|site| places(numbers, handed.record(site)))
        .collect();
    let pairs = (0..numbers).flat_map(|y| (0..y).map(move |x| (x, y)));
    let mut conflicting = pairs.filter(|&(x, y)| handed.conflict(x, y));
    conflicting.all(|(x, y)| !Seen::of(&sites, x, y).bad())
}

/// The lowest posting that shows that a line departs, with the places in its record and in all lines.
fn shows(handed: &Handed, own: &[usize], all: &[usize], y: usize) -> Option<usize> {
    let ahead = |places: &[usize], x: usize| places[x] != 0 && places[x] < places[y];
    (0..handed.numbers()).find(|&x| handed.conflict(x, y) && ahead(own, x) != ahead(all, x))
}

/// The answer for records that are not refused.
pub fn audit(handed: &Handed) -> Answer {
    let all = places(handed.numbers(), &handed.lines);
    for site in 0..handed.ends.len() {
        let own = places(handed.numbers(), handed.record(site));
        for (line, &y) in handed.record(site).iter().enumerate() {
            let Some(x) = shows(handed, &own, &all, y.into()) else {
                continue;
            };
            let found = finding(handed, x as u16, y);
            let (code, [first, second, here, there]) = found.expect("the pair has a finding");
            return Answer {
                first,
                second,
                here,
                there,
                ..Answer::at(code, site, line, x)
            };
        }
    }
    Answer::default()
}
