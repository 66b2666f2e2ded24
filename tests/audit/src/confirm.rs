// Holds: a finding held against the records: its words, word by word, and all lines before the one that it names.
// Rests on: answer, handed, pairs.

use crate::answer::{Answer, APART, CROSSED, MISSING};
use crate::handed::Handed;
use crate::pairs;

/// The line of a number in a record.
fn line_of(record: &[u16], x: u16) -> Option<usize> {
    record.iter().position(|&y| y == x)
}

/// Whether a record has x above y.
fn has_above(record: &[u16], x: u16, y: u16) -> bool {
    match (line_of(record, x), line_of(record, y)) {
        (Some(i), Some(j)) => i < j,
        _ => false,
    }
}

/// Whether the records show what the finding says.
pub fn words_hold(handed: &Handed, answer: &Answer) -> bool {
    let sites = handed.ends.len() as u64;
    if answer.here >= sites || answer.there >= sites {
        return false;
    }
    let [here, there] = [answer.here, answer.there].map(|site| handed.record(site as usize));
    let [first, second] = [answer.first, answer.second].map(|x| x as u16);
    let mut all = (0..handed.ends.len()).map(|site| handed.record(site));
    match answer.code {
        CROSSED => has_above(here, first, second) && has_above(there, second, first),
        MISSING => {
            let without = here.contains(&second) && !here.contains(&first);
            without && has_above(there, first, second)
        }
        APART => {
            let both = |record: &[u16]| record.contains(&first) && record.contains(&second);
            here.contains(&first) && there.contains(&second) && !all.any(both)
        }
        _ => false,
    }
}

/// Whether the pair is the posting named and the one at the line named, and the two conflict.
pub fn names_the_line(handed: &Handed, answer: &Answer) -> bool {
    let record = handed.record(answer.site as usize);
    let Some(&y) = record.get(answer.line as usize) else {
        return false;
    };
    let (x, y) = (answer.posting, u64::from(y));
    let pair = [answer.first, answer.second];
    (pair == [x, y] || pair == [y, x]) && handed.conflict(x as usize, y as usize)
}

/// The records up to a line of a site, which is left out.
pub fn cut(handed: &Handed, site: usize, line: usize) -> Handed {
    let mut records = handed.records();
    records.truncate(site + 1);
    records[site].truncate(line);
    let mut before = handed.clone();
    before.replace(&records);
    before
}

/// Whether all lines before the one named agree, and with it no longer.
pub fn first_fault(handed: &Handed, answer: &Answer) -> bool {
    let [site, line] = [answer.site, answer.line].map(|n| n as usize);
    pairs::agree(&cut(handed, site, line)) && !pairs::agree(&cut(handed, site, line + 1))
}

type Test = fn(&Handed, &Answer) -> bool;

/// What is wrong with an answer that names a pair.
pub fn confirm(handed: &Handed, answer: &Answer) -> Result<(), String> {
    let tests: [(&str, Test); 3] = [
        ("the pair is not that of the line", names_the_line),
        ("the records do not show what is said", words_hold),
        ("it is not the first fault", first_fault),
    ];
    match tests.iter().find(|(_, test)| !test(handed, answer)) {
        Some((cause, _)) => Err(format!("{cause}: {answer:?}")),
        None => Ok(()),
    }
}
