// Holds: where each number of a board stands in its row, and how wide it is.
// Rests on: set, flight; docs/FORMATS.md, whose table this is.

use crate::flight::FORMS;
use crate::set::{POSTINGS, SITES, WORDS};

/// How many numbers a board is. A set of postings is its words, one number each, the lowest postings first.
pub const NUMBERS: usize = FIRST_LOG + POSTINGS;

pub const N: usize = 0;
pub const F: usize = 1;
pub const MATRIX: usize = 2;
pub const DOWN: usize = 3;
pub const OFFERED: usize = 4;
const FIRST_POSTING: usize = 5;
const FIRST_SITE: usize = FIRST_POSTING + FIELDS * POSTINGS;
const FIRST_THIRD: usize = FIRST_SITE + SITE * SITES;
const FIRST_TO: usize = FIRST_THIRD + PARTS * POSTINGS;
const FIRST_GOOD: usize = FIRST_TO + FORMS * POSTINGS * SITES;
const FIRST_CARRIED: usize = FIRST_GOOD + POSTINGS * SITES;
pub const POOL: usize = FIRST_CARRIED + WORDS * POSTINGS * SITES;
const FIRST_ENTRY: usize = POOL + WORDS;
pub const LOGGED: usize = FIRST_ENTRY + WORDS * POSTINGS;
const FIRST_LOG: usize = LOGGED + 1;

/// Of a posting: owner, kind, account a, account b, amount.
pub const FIELDS: usize = 5;
pub const OWNER: usize = 0;
pub const AMOUNT: usize = 4;

/// Of a third round: the sites heard, those whose set had the posting, the union of the sets.
pub const PARTS: usize = UNION + WORDS;
pub const UNION: usize = 2;

/// Of a site: its five sets, what it heard, how much of the log it read, and its record.
pub const SITE: usize = RECORD + POSTINGS;
pub const SETS: usize = 5;
pub const FINISHED: usize = 3 * WORDS;
pub const TOLD: usize = 4 * WORDS;
pub const HEARD: usize = SETS * WORDS;
pub const HEARD_GOOD: usize = HEARD + POSTINGS;
pub const READ: usize = HEARD_GOOD + POSTINGS;
pub const DELIVERED: usize = READ + 1;
pub const RECORD: usize = DELIVERED + 1;

pub fn posting(m: usize, field: usize) -> usize {
    FIRST_POSTING + FIELDS * m + field
}

/// A number of a site by its place in the site.
pub fn site(s: usize, place: usize) -> usize {
    FIRST_SITE + SITE * s + place
}

pub fn third(m: usize, part: usize) -> usize {
    FIRST_THIRD + PARTS * m + part
}

/// Where messages of one form and posting from one site are in flight to.
pub fn to(form: usize, m: usize, from: usize) -> usize {
    FIRST_TO + SITES * (POSTINGS * form + m) + from
}

/// The GOOD of SECONDs in flight.
pub fn good(m: usize, from: usize) -> usize {
    FIRST_GOOD + SITES * m + from
}

/// The first word of what a THIRD in flight carries.
pub fn carried(m: usize, from: usize) -> usize {
    FIRST_CARRIED + WORDS * (SITES * m + from)
}

/// The first word of the set that an entry carries.
pub fn entry(m: usize) -> usize {
    FIRST_ENTRY + WORDS * m
}

pub fn log(k: usize) -> usize {
    FIRST_LOG + k
}

/// How many bits the number at a place below `NUMBERS` has.
pub fn width(place: usize) -> u32 {
    match place {
        N | F | DOWN => 8,
        MATRIX => 16,
        OFFERED => 64,
        FIRST_POSTING..FIRST_SITE => match (place - FIRST_POSTING) % FIELDS {
            AMOUNT => 32,
            _ => 8,
        },
        FIRST_SITE..FIRST_THIRD => match (place - FIRST_SITE) % SITE {
            0..HEARD | READ | DELIVERED => 64,
            _ => 8,
        },
        FIRST_THIRD..FIRST_TO => match (place - FIRST_THIRD) % PARTS {
            UNION.. => 64,
            _ => 8,
        },
        FIRST_TO..FIRST_CARRIED => 8,
        FIRST_CARRIED..FIRST_LOG => 64,
        FIRST_LOG.. => 8,
    }
}

/// A value modulo the width of its place.
pub fn fitted(place: usize, value: u64) -> u64 {
    value & u64::MAX >> (64 - width(place))
}

/// The row with the number at a place replaced; with a place past the last it stays as it is.
pub fn replaced(row: &[u64], place: u64, value: u64) -> Vec<u64> {
    let mut row = row.to_vec();
    if place < NUMBERS as u64 {
        row[place as usize] = fitted(place as usize, value);
    }
    row
}
