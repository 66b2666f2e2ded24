// Holds: the twin of the program `audit`: its arguments, the files read and audited, and the whole of what it prints.
// Rests on: its parts lines, refusals, reading, figures, witness and report; audit for the judge of a matrix and the audit of what was read.

mod figures;
mod lines;
mod reading;
mod refusals;
mod report;
mod witness;

use crate::audit::{matrix_ok, FIXED_PAIRS};
use reading::Read;
use refusals::{refused, Refused};
use std::io::{stdout, Write};

const SITES: usize = 7;

/// The matrix that the first word gives, 0 where it is none; and the words behind it.
fn matrix(words: &[String]) -> (u16, &[String]) {
    let given = words.first().and_then(|word| word.strip_prefix("0x"));
    let Some(digits) = given else {
        return (FIXED_PAIRS, words);
    };
    let hex = digits.bytes().all(|byte| byte.is_ascii_hexdigit());
    let value = u16::from_str_radix(digits, 16).ok().filter(|_| hex);
    (value.unwrap_or(0), &words[1..])
}

/// What the program prints for its arguments.
pub fn run(words: &[String]) -> Vec<u8> {
    let (matrix, words) = matrix(words);
    let (postings, records) = match words.split_first() {
        Some((postings, records)) if (1..=SITES).contains(&records.len()) => (postings, records),
        _ => return refused(&Refused::only(1)).into_bytes(),
    };
    if !matrix_ok(matrix) {
        return refused(&Refused::only(2)).into_bytes();
    }
    let postings = Some(postings.as_str()).filter(|&name| name != "-");
    let mut text = match Read::files(postings, records) {
        Ok(read) => report::report(matrix, &read),
        Err(refusal) => refused(&refusal),
    };
    for (site, name) in records.iter().enumerate() {
        text += &format!("Site {site} is {name}.\n");
    }
    text.into_bytes()
}

/// The program: what it prints goes to standard output.
pub fn print(words: &[String]) -> std::io::Result<()> {
    stdout().write_all(&run(words))
}
