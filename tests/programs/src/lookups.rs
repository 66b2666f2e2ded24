// Holds: look-ups held to the model and to what the programs show otherwise, on the boards that files of all sorts leave.
// Rests on: looked, changed_lookups, met, pairs, shown, counts, questions, programs, files, short, stack; the model's boards and rows.

use crate::changed_lookups::compare_changed;
use crate::counts::Counts;
use crate::files::{beginning, numbers, Sort, SORTS};
use crate::looked::{look, model_looks};
use crate::met::{add_board, add_lines, add_request};
use crate::pairs::request;
use crate::programs::{left_by, Programs};
use crate::questions::{as_left, Question};
use crate::short::SHORT;
use crate::shown::Shown;
use crate::stack::begin;
use model::numbers::NUMBERS;
use model::prng::Prng;
use model::SITES;
use std::thread;

/// Of each sort at most so many files. The whole file and a beginning of it are run, with so many look-ups each: more
/// on a board that has records.
const FILES: usize = 140;
const REQUESTS: usize = 4;
const MORE_REQUESTS: usize = 20;

/// Boards are changed of at most so many files of each short sort, and of each other sort so many.
const SHORT_FILES: usize = 210;
const LONG_FILES: usize = 140;

/// The first sorts, whose files are well formed and their starts accepted.
const ACCEPTED: usize = 10;

/// A file by its sort and number.
type File = (&'static Sort, usize);

/// A comparison on one file of a seed. The error names all that is needed to make it anew.
type Compares = fn(&Programs, u64, File) -> Result<Counts, String>;

/// At most so many files of a sort: all it has, or else some at random.
fn some_files(seed: u64, sort: &'static Sort, most: usize) -> Vec<File> {
    let mut rng = numbers(seed, sort, sort.count);
    let any = |_| rng.below(sort.count as u64) as usize;
    let some: Vec<usize> = match sort.count {
        few if few <= most => (0..few).collect(),
        _ => (0..most).map(any).collect(),
    };
    some.into_iter().map(|k| (sort, k)).collect()
}

/// The files whose boards are looked at as they are, and those whose boards are changed.
fn files(seed: u64) -> [Vec<File>; 2] {
    let all = SORTS.iter().chain(&SHORT).map(|sort| (sort, FILES));
    let short = SHORT.iter().map(|sort| (sort, SHORT_FILES));
    let long = SORTS[..ACCEPTED].iter().map(|sort| (sort, LONG_FILES));
    let some = |(sort, most)| some_files(seed, sort, most);
    [
        all.flat_map(some).collect(),
        short.chain(long).flat_map(some).collect(),
    ]
}

/// Compares on all these files, and side by side with that on changed boards.
pub fn compare_all(programs: &Programs, seed: u64) -> Result<Counts, String> {
    let compare_each = |files: Vec<File>, compares: Compares| -> Result<Counts, String> {
        let mut counts = Counts::default();
        for file in files {
            counts.join(compares(programs, seed, file)?);
        }
        Ok(counts)
    };
    let [as_they_are, changed] = files(seed);
    thread::scope(|scope| {
        let parts = [
            begin(scope, || compare_each(as_they_are, compare_file)),
            begin(scope, || compare_each(changed, compare_changed)),
        ];
        let mut counts = Counts::default();
        for part in parts {
            counts.join(part.join().expect("a comparison does not panic")?);
        }
        Ok(counts)
    })
}

/// Compares on the boards that a file and a beginning of it leave.
pub fn compare_file(programs: &Programs, seed: u64, (sort, k): File) -> Result<Counts, String> {
    let mut rng = numbers(seed, sort, k);
    let file = sort.file(&mut rng, k);
    let part = beginning(&mut rng, &file);
    let mut counts = Counts::default();
    counts.add("files");
    for input in [&file, part] {
        let done = compare_input(programs, input, &mut rng).map_err(|cause| {
            let (name, length) = (sort.name, input.len());
            format!("{name}, file {k} of seed {seed}, its first {length} bytes, {cause}")
        });
        counts.join(done?);
    }
    Ok(counts)
}

fn compare_input(programs: &Programs, input: &[u8], rng: &mut Prng) -> Result<Counts, String> {
    let left = left_by(input);
    let board = left.as_ref().map_err(|refusal| *refusal);
    let shown = board.ok().map(|_| Shown::of_file(programs, input));
    let shown = shown.transpose()?;
    let n = board.map_or(SITES as u8, |board| board.n);
    let mut counts = Counts::default();
    let filled = board.is_ok_and(|board| board.sites.iter().any(|s| !s.record.is_empty()));
    for _ in 0..if filled { MORE_REQUESTS } else { REQUESTS } {
        let request = request(rng, n);
        let (place, value) = idle_change(rng, board.is_err());
        let named = |cause| format!("{}, {value} at {place}: {cause}", request.told());
        let is = look(&request, |pairs, out| {
            (programs.run_lookup)(input, pairs, out)
        });
        let done = is.compare(&model_looks(&request, board));
        done.map_err(named)?;
        let unchanged = look(&request, |pairs, out| {
            (programs.lookup_changed)(input, place, value, pairs, out)
        });
        is.compare_unchanged(&unchanged).map_err(named)?;
        add_request(&mut counts, &request, n, is.answer);
        if let (Ok(board), Some(shown), true) = (board, &shown, is.accepted()) {
            is.check(&request, shown).map_err(named)?;
            add_board(&mut counts, &request, board);
            add_lines(&mut counts, is.lines(&request));
            counts.add("past the last");
        }
    }
    Ok(counts)
}

/// A place and a value with which nothing is replaced: the place is past the last. A file that is refused has no row,
/// so that any place will do.
fn idle_change(rng: &mut Prng, refused: bool) -> (u64, u64) {
    let Question { place, value, .. } = as_left(rng);
    let any = rng.below(NUMBERS as u64);
    (if refused { any } else { place }, value)
}
