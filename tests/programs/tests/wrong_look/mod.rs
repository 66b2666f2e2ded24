// Holds: a way to write a look-up that is wrong in one thing, and to see that the comparison finds it out.
// Rests on: programs, the model.
#![allow(dead_code)]

use model::{Board, Refusal};
use programs::files::SORTS;
use programs::lookups::compare_file;
use programs::pairs::Pair;
use programs::programs::{counted, left_by, Programs, MODEL};
use programs::stack::on_large_stack;
use std::cell::Cell;

/// A look-up on the board of a file.
pub type Wrong = fn(&Board, &[u8], &mut [i64]) -> Result<usize, Refusal>;

thread_local! {
    static WRONG: Cell<Wrong> = const { Cell::new(Board::look_up) };
}

/// Looks up as the wrong program at hand does.
fn look_wrong(input: &[u8], pairs: &[u8], out: &mut [i64]) -> u64 {
    counted(left_by(input).and_then(|board| WRONG.get()(&board, pairs, out)))
}

/// The difference that a comparison on some files of each sort finds first must have this in its words.
pub fn found_in(programs: &Programs, words: &str) {
    let files = (0..100).flat_map(|k| SORTS.iter().map(move |sort| (sort, k % sort.count)));
    let mut causes = files.filter_map(|file| compare_file(programs, 3, file).err());
    let cause = causes.next().expect("a difference is found");
    assert!(cause.contains(words), "{words}: {cause}");
}

pub fn found(wrong: Wrong, words: &str) {
    on_large_stack(|| {
        WRONG.set(wrong);
        let programs = Programs {
            run_lookup: look_wrong,
            ..MODEL
        };
        found_in(&programs, words);
    });
}

pub fn pairs_of(bytes: &[u8]) -> &[Pair] {
    bytes.as_chunks().0
}

/// The bytes with each pair changed; an odd last byte stays.
pub fn changed(bytes: &[u8], change: impl FnMut(&mut Pair)) -> Vec<u8> {
    let mut bytes = bytes.to_vec();
    bytes.as_chunks_mut().0.iter_mut().for_each(change);
    bytes
}
