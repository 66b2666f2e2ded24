// Holds: call_changed held to the model on files of many sorts: their boards as they are, with numbers changed, and where nothing is taken.
// Rests on: programs, outcome, questions, untaken, counts, files, short, stack; the model's rows.

use crate::counts::Counts;
use crate::files::{numbers, Sort, SORTS};
use crate::outcome::ask;
use crate::programs::{left_by, Programs};
use crate::questions::{as_left, question, Question};
use crate::short::SHORT;
use crate::stack::begin;
use crate::untaken::untaken;
use model::meaning::differs;
use model::numbers::{fitted, replaced, NUMBERS};
use model::Board;
use std::thread;

/// Changes to the board of each file.
const CHANGES: usize = 9;

/// Of the long sorts, so many files are taken too: one for each n and f.
const LONG_SORTS: usize = 5;
const LONG_FILES: usize = 14;

/// The first or the second half of the files.
fn files(half: usize) -> impl Iterator<Item = (&'static Sort, usize)> {
    let short = SHORT.iter().map(|sort| (sort, sort.count));
    let long = SORTS[..LONG_SORTS].iter().map(|sort| (sort, LONG_FILES));
    short.chain(long).flat_map(move |(sort, count)| {
        let part = count * half / 2..count * (half + 1) / 2;
        part.map(move |k| (sort, k))
    })
}

/// Compares on all files, in two halves side by side.
pub fn compare_all(programs: &Programs, seed: u64) -> Result<Counts, String> {
    let compare_half = |half: usize| -> Result<Counts, String> {
        let mut counts = Counts::default();
        for (sort, k) in files(half) {
            counts.join(compare_changed(programs, seed, sort, k)?);
        }
        Ok(counts)
    };
    thread::scope(|scope| {
        let halves = [0, 1].map(|half| begin(scope, move || compare_half(half)));
        let mut counts = Counts::default();
        for half in halves {
            counts.join(half.join().expect("a comparison does not panic")?);
        }
        Ok(counts)
    })
}

/// Compares on one file. The error names it and the question, so that they can be made anew.
pub fn compare_changed(
    programs: &Programs,
    seed: u64,
    sort: &Sort,
    k: usize,
) -> Result<Counts, String> {
    let mut rng = numbers(seed, sort, k);
    let file = sort.file(&mut rng, k);
    let before = left_by(&file).expect("the file is well formed and its start accepted");
    let named = |question: &Question, cause: String| {
        let name = sort.name;
        format!("{name}, file {k} of seed {seed}, {question:?}: {cause}")
    };
    let mut counts = Counts::default();
    counts.add("files");
    let first = as_left(&mut rng);
    let row = row_before(programs, &file, &before, &first).map_err(|e| named(&first, e))?;
    for _ in 0..CHANGES {
        let question = question(&mut rng, &before, &row);
        let done = compare_question(programs, &file, &row, &question);
        counts.join(done.map_err(|e| named(&question, e))?);
    }
    let (reason, file, question) = untaken(&mut rng, &file);
    let done = ask(programs, &file, &question).compare_untaken();
    done.map_err(|e| named(&question, format!("{reason}: {e}")))?;
    counts.add(reason);
    Ok(counts)
}

/// The board that the file leaves, which must be the model's.
pub(crate) fn row_before(
    programs: &Programs,
    file: &[u8],
    before: &Board,
    question: &Question,
) -> Result<Vec<u64>, String> {
    let out = ask(programs, file, question);
    if let Some(place) = differs(out.row(), before) {
        let is = out.row()[place];
        let words = "left by the file, the row has";
        return Err(format!("{words} {is} at {place}, not so the model"));
    }
    out.compare(question, out.row())?;
    Ok(out.row().to_vec())
}

fn compare_question(
    programs: &Programs,
    file: &[u8],
    row: &[u64],
    question: &Question,
) -> Result<Counts, String> {
    let changed = replaced(row, question.place, question.value);
    let out = ask(programs, file, question);
    let (asked, back) = out.compare(question, &changed)?;
    let mut counts = Counts::default();
    if changed == row {
        counts.add("without change");
    } else {
        counts.add_call(&asked, &back);
    }
    if question.place >= NUMBERS as u64 {
        counts.add("past the last");
    } else if question.value != fitted(question.place as usize, question.value) {
        counts.add("too wide");
    }
    Ok(counts)
}
