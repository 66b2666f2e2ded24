// Holds: files as a supplier may write them: postings and records of any form, and files with faults of form.
// Rests on: handed, large; the model's random numbers.

use crate::handed::Handed;
use crate::large::{posting, record};
use model::prng::Prng;
use model::FIXED_PAIRS;

const WORDS: [&str; 4] = ["TRADE", "RATE", "CALL", "NET"];
const HEADINGS: [&str; 4] = ["number,kind,a,b,amount", "number", "Z", "posting 7"];
/// What is put into a file to spoil it.
const SPOILS: [&[u8]; 14] = [
    b",",
    b"\n",
    b"\r",
    b" ",
    b"-",
    b"0",
    b"7",
    b"99999",
    b"TRADE",
    b"NET",
    b"\xEF\xBB\xBF",
    b"x",
    b"\"",
    b"\r\n",
];

/// All five fields, the kind by its word or by its number.
fn fields(rng: &mut Prng, handed: &Handed, x: usize) -> String {
    let p = handed.posting(x);
    let kind = match rng.percent(80) {
        true => WORDS[usize::from(p.kind)].to_string(),
        false => p.kind.to_string(),
    };
    format!("{x},{kind},{},{},{}", p.a, p.b, p.amount)
}

/// Lines as a file: perhaps a heading, either end of a line, perhaps none at the last.
fn joined(rng: &mut Prng, mut lines: Vec<String>) -> Vec<u8> {
    if rng.percent(30) {
        lines.insert(0, rng.pick(&HEADINGS).to_string());
    }
    let end = rng.pick(&["\n", "\r\n"]);
    let mut text = lines.join(end);
    if rng.percent(70) && !lines.is_empty() {
        text += end;
    }
    text.into_bytes()
}

/// The postings' file, in any order.
pub fn postings(rng: &mut Prng, handed: &Handed) -> Vec<u8> {
    let mut numbers: Vec<usize> = (0..handed.numbers()).filter(|&x| handed.knows(x)).collect();
    for i in (1..numbers.len()).rev() {
        numbers.swap(i, rng.below(i as u64 + 1) as usize);
    }
    let lines = numbers.iter().map(|&x| fields(rng, handed, x)).collect();
    joined(rng, lines)
}

/// A site's file: numbers alone, all fields, or both by turns.
pub fn site(rng: &mut Prng, handed: &Handed, site: usize, own: bool) -> Vec<u8> {
    let whole = if own { 100 } else { rng.pick(&[0, 50, 100]) };
    let numbers = handed.record(site).iter().map(|&x| usize::from(x));
    let numbers: Vec<usize> = numbers.collect();
    let line = |&x: &usize| match rng.percent(whole) {
        true => fields(rng, handed, x),
        false => x.to_string(),
    };
    let lines = numbers.iter().map(line).collect();
    joined(rng, lines)
}

/// A file with something put in, taken out, or one byte changed.
pub fn spoil(rng: &mut Prng, text: &mut Vec<u8>) {
    let at = rng.below(text.len() as u64 + 1) as usize;
    match rng.below(3) {
        0 => drop(text.splice(at..at, rng.pick(&SPOILS).iter().copied())),
        1 if at < text.len() => drop(text.remove(at)),
        _ if at < text.len() => text[at] = rng.pick(&SPOILS)[0],
        _ => {}
    }
}

/// Some postings, some of the numbers unused, and records that agree more often than not.
pub fn handed(rng: &mut Prng) -> Handed {
    let mut handed = Handed::new(FIXED_PAIRS, &[]);
    for _ in 0..rng.within(1, 9) {
        if rng.percent(15) {
            handed.skip();
        } else {
            let shares = rng.pick(&[[20, 20, 20, 0], [10, 30, 10, 10]]);
            let mut p = posting(rng, shares);
            if rng.percent(70) && p.a < 200 {
                (p.a, p.b) = (p.a % 3, if p.kind == 0 { p.a % 3 + 1 } else { p.a % 3 });
            }
            handed.add(&p);
        }
    }
    let known: Vec<usize> = (0..handed.numbers()).filter(|&x| handed.knows(x)).collect();
    let mut all = Handed::new(FIXED_PAIRS, &[]);
    known.iter().for_each(|&x| all.add(&handed.posting(x)));
    for _ in 0..rng.pick(&[1, 2, 2, 3, 3, 7]) {
        let length = rng.pick(&[
            known.len(),
            known.len(),
            rng.clone().below(known.len() as u64 + 1) as usize,
        ]);
        let mut lines: Vec<u16> = record(rng, &all, length);
        lines
            .iter_mut()
            .for_each(|x| *x = known[usize::from(*x)] as u16);
        if rng.percent(25) && lines.len() > 1 {
            let at = rng.below(lines.len() as u64 - 1) as usize;
            lines.swap(at, at + 1);
        }
        if rng.percent(15) && !lines.is_empty() {
            lines.remove(rng.below(lines.len() as u64) as usize);
        }
        if rng.percent(5) && !lines.is_empty() {
            lines.push(rng.pick(&lines));
        }
        handed.record_of(&lines);
    }
    handed
}
