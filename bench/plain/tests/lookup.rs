// Holds: the twin's look-ups agree with the model's, on random run files of every sort, on full records, and with random pairs.
// Rests on: the twin, common; the files and boards of tests/programs; the model.

mod common;

use common::{each_file, SEEDS};
use model::lookup::{LINE, PAIRS};
use model::prng::Prng;
use model::{Board, Refusal, ACCOUNTS, POSTINGS, SITES};
use programs::files::SORTS;
use programs::full::{full_file, netted_file};
use programs::programs::left_by;
use std::collections::BTreeMap;

/// What stands in a lent slice beforehand; no figure is so low.
const OLD: i64 = i64::MIN;

/// How many pairs are asked for on each board, besides a number at random.
const COUNTS: [usize; 5] = [0, 1, PAIRS - 1, PAIRS, PAIRS + 1];

/// How often each full board is asked for all of these.
const FULL: usize = 40;

/// The refusals of a run file, and of a look-up on its board.
const REFUSALS: [u64; 7] = [1, 2, 3, 4, 5, 7, 18];

/// How often each answer was given.
type Answers = BTreeMap<u64, u64>;

/// Bytes handed over, and how many numbers are lent.
struct Request {
    pairs: Vec<u8>,
    room: usize,
}

/// Pairs over all or some of the sites, at times with a site or an account that is none, an odd last byte, a slice that is
/// longer or too short by one.
fn request(rng: &mut Prng, n: u8, count: usize) -> Request {
    let part = rng.pick(&[30, 60, 100, 100]);
    let mut sites: Vec<u8> = (0..n).filter(|_| rng.percent(part)).collect();
    sites.push(rng.below(n.into()) as u8);
    let pair = |_| [rng.pick(&sites), rng.below(ACCOUNTS as u64) as u8];
    let mut pairs: Vec<u8> = (0..count).flat_map(pair).collect();
    let any = |rng: &mut Prng| 2 * rng.below(count as u64) as usize;
    if count > 0 && rng.percent(12) {
        let other = rng.within(n.into(), 255) as u8;
        pairs[any(rng)] = rng.pick(&[n, n + 1, 8, 63, 64, 65, 255, other]);
    }
    if count > 0 && rng.percent(12) {
        let other = rng.within(ACCOUNTS as u64, 255) as u8;
        pairs[any(rng) + 1] = rng.pick(&[16, 17, 128, 255, other]);
    }
    if rng.percent(25) {
        pairs.push(rng.word() as u8);
    }
    let (exact, more) = (LINE * count, rng.within(1, 40) as usize);
    let short = exact.saturating_sub(1);
    let room = rng.pick(&[exact, exact, exact + more, exact, exact + 1, short]);
    Request { pairs, room }
}

/// The answer as a number, as the twin gives it.
fn number(answer: Result<usize, Refusal>) -> u64 {
    match answer {
        Ok(places) => places as u64,
        Err(refusal) => u64::from(refusal.number()).wrapping_neg(),
    }
}

/// Compares one look-up on the board that a file leaves: the answer, and the whole slice.
fn same(
    board: &Result<Board, Refusal>,
    file: &[u8],
    request: &Request,
    answers: &mut Answers,
) -> Result<(), String> {
    let Request { pairs, room } = request;
    let mut wanted = vec![OLD; *room];
    let looked_up = match board {
        Ok(board) => board.look_up(pairs, &mut wanted),
        Err(refusal) => Err(*refusal),
    };
    let expected = number(looked_up);
    let mut out = vec![OLD; *room];
    let answer = plain::run_lookup(file, pairs, &mut out);
    let asked = format!("{} bytes with room {room}", pairs.len());
    if answer != expected {
        return Err(format!("{asked}: {answer}, the model {expected}"));
    }
    if let Some(at) = (0..*room).find(|&at| out[at] != wanted[at]) {
        let (is, was) = (out[at], wanted[at]);
        return Err(format!("{asked}: {is} at {at}, the model {was}"));
    }
    *answers.entry(answer).or_default() += 1;
    Ok(())
}

/// Compares on one file, with each count of pairs.
fn compare(file: &[u8], rng: &mut Prng, answers: &mut Answers) -> Result<(), String> {
    let board = left_by(file);
    let n = board.as_ref().map_or(SITES as u8, |board| board.n);
    let any = rng.below(PAIRS as u64) as usize;
    for count in COUNTS.into_iter().chain([any]) {
        let request = request(rng, n, count);
        same(&board, file, &request, answers)?;
    }
    Ok(())
}

/// How often an answer was given that refuses with a number.
fn refused(answers: &Answers, number: u64) -> u64 {
    answers
        .get(&number.wrapping_neg())
        .map_or(0, |&count| count)
}

/// All files of all sorts and seeds. Every refusal there is comes up.
#[test]
fn files_of_every_sort() {
    let mut answers = Answers::new();
    for sort in &SORTS {
        for seed in SEEDS {
            each_file(sort, seed, |file, rng| compare(file, rng, &mut answers));
        }
    }
    let all: u64 = answers.values().sum();
    let mut accepted = all;
    for number in REFUSALS {
        let count = refused(&answers, number);
        println!("refused with {number}: {count} look-ups, agree");
        assert!(count > 1_000);
        accepted -= count;
    }
    println!("accepted: {accepted} look-ups, agree");
    assert!(accepted > 50_000);
}

/// Boards whose records are full, at all sites.
#[test]
fn full_records() {
    let mut answers = Answers::new();
    let mut rng = Prng::new(1);
    for n in 3..=SITES as u8 {
        for file in [full_file(n), netted_file(n)] {
            for _ in 0..FULL {
                let compared = compare(&file, &mut rng, &mut answers);
                compared.unwrap_or_else(|cause| panic!("{n} sites: {cause}"));
            }
        }
    }
    for sites in 1..=SITES {
        let places = (sites * POSTINGS) as u64;
        println!("{places} places: {} look-ups, agree", answers[&places]);
        assert!(answers[&places] > 20);
    }
}
