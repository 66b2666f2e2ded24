// Holds: the programs as functions over slices: a run file run and printed, drained, run alone, or its board looked up.
// Rests on: arrays, books, call, drain, events, lookup, runfile, text.

use crate::arrays::Board;
use crate::books::FIGURES;
use crate::call::Refusal;
use crate::runfile::{Run, MAX_EVENTS};
use crate::text::Text;

/// The answer where nothing is written.
pub const NONE: u64 = u64::MAX;

/// Does the events of a run on the board of its start, where it stands: a board handed back would be copied. Beside it
/// the refusal number of each event, 0 if it was accepted.
fn play(board: &mut Board, run: &Run, numbers: &mut [u8]) {
    for (number, call) in numbers.iter_mut().zip(run.calls()) {
        *number = match board.perform(call) {
            Ok(()) => 0,
            Err(refusal) => refusal as u8,
        };
    }
}

/// Writes what `board` prints for a run file. The answer is the count of bytes, or NONE if the slice is shorter.
pub fn run_file(input: &[u8], out: &mut [u8]) -> u64 {
    let written = match Run::decode(input) {
        Ok(run) => {
            let numbers = &mut [0; MAX_EVENTS][..run.length()];
            let mut board = Board::start(run.setup);
            play(&mut board, &run, numbers);
            Text::Played(numbers, &board).write(out)
        }
        Err(refusal) => Text::Refused(refusal).write(out),
    };
    written.unwrap_or(NONE)
}

/// Runs a file, drains with the limit, and fills in the books of all sites. The answer is the drain's count, or
/// NONE if the file is refused or the slice is shorter than 64 numbers a site.
pub fn run_drain(input: &[u8], limit: u64, out: &mut [i64]) -> u64 {
    let Ok(run) = Run::decode(input) else {
        return NONE;
    };
    if out.len() < FIGURES * usize::from(run.setup.n) {
        return NONE;
    }
    let mut board = Board::start(run.setup);
    play(&mut board, &run, &mut [0; MAX_EVENTS]);
    let count = board.drain(limit);
    board.books(out);
    count
}

/// Runs a file and fills in the refusal number of each event, 0 if it was accepted. The answer is the count of
/// events, or NONE if the file is refused or the slice is shorter than that.
pub fn run_events(input: &[u8], numbers: &mut [u8]) -> u64 {
    let Ok(run) = Run::decode(input) else {
        return NONE;
    };
    let Some(numbers) = numbers.get_mut(..run.length()) else {
        return NONE;
    };
    play(&mut Board::start(run.setup), &run, numbers);
    run.length() as u64
}

/// Runs a file and looks balances up on its board: four numbers for each pair, bytes of site and account. The answer is
/// the count of record places visited, or 2^64 less the number of the refusal; the slice is then as it was.
pub fn run_lookup(input: &[u8], pairs: &[u8], out: &mut [i64]) -> u64 {
    match looked_up(input, pairs, out) {
        Ok(places) => places as u64,
        Err(refusal) => (refusal as u64).wrapping_neg(),
    }
}

fn looked_up(input: &[u8], pairs: &[u8], out: &mut [i64]) -> Result<usize, Refusal> {
    let run = Run::decode(input)?;
    let mut board = Board::start(run.setup);
    play(&mut board, &run, &mut [0; MAX_EVENTS]);
    board.look_up(pairs, out)
}
