// Holds: what the programs answer, as functions over slices, and how the model answers.
// Rests on: the model, text, called.

use crate::called::{asked, call};
use model::meaning::write;
use model::numbers::{replaced, NUMBERS};
use model::row::read_sound;
use model::{decode, Board, Refusal, FIGURES};
use text::played;

/// The answer where nothing is written.
pub const NONE: u64 = u64::MAX;

/// How many numbers `call_changed` fills: a row and two more.
pub const FILLED: usize = NUMBERS + 2;

/// Input, limit and lent slice.
pub type Drains = fn(&[u8], u64, &mut [i64]) -> u64;

/// Input, place, value, event, limit, and as lent slices the figures and the board.
pub type CallsChanged = fn(&[u8], u64, u64, &[u8], u64, &mut [i64], &mut [u64]) -> u64;

/// Input, pairs and lent slice.
pub type LooksUp = fn(&[u8], &[u8], &mut [i64]) -> u64;

/// Input, place, value, pairs and lent slice.
pub type LooksUpChanged = fn(&[u8], u64, u64, &[u8], &mut [i64]) -> u64;

/// Functions under comparison. Of a slice that is lent, what is not written stays.
#[derive(Clone, Copy)]
pub struct Programs {
    /// Writes what `board` prints for a run file. The answer is the count of bytes, or NONE if the slice is
    /// shorter than that.
    pub run_file: fn(input: &[u8], out: &mut [u8]) -> u64,
    /// Plays the events of a run file, drains with the limit, and fills in the books of all sites. The answer is
    /// the drain's count, or NONE if the file is refused or the slice is shorter than 64 numbers a site.
    pub run_drain: Drains,
    /// Promises what `run_drain` promises.
    pub run_by_value: Drains,
    /// Plays the events of a run file and fills in the refusal number of each answer, 0 if it was accepted. The
    /// answer is how many they are, or NONE if the file is refused or the slice is shorter than that.
    pub run_events: fn(input: &[u8], numbers: &mut [u8]) -> u64,
    /// Plays the events of a run file, changes one number of the board, and makes a call. The answer is the number
    /// of its refusal or 0, or NONE if the file is refused, the event is none, or the slice for the board is
    /// shorter than the row and two numbers more.
    pub call_changed: CallsChanged,
    /// Plays the events of a run file and fills in the line of each pair. The answer is how many places of records
    /// were visited, or that of a refusal of the file or of the look-up: see `counted`.
    pub run_lookup: LooksUp,
    /// Promises what `run_lookup` promises, of the board with one number changed.
    pub lookup_changed: LooksUpChanged,
}

pub const MODEL: Programs = Programs {
    run_file,
    run_drain,
    run_by_value: run_drain,
    run_events,
    call_changed,
    run_lookup,
    lookup_changed,
};

fn run_file(input: &[u8], out: &mut [u8]) -> u64 {
    let text = model::run(input);
    let Some(part) = out.get_mut(..text.len()) else {
        return NONE;
    };
    part.copy_from_slice(text.as_bytes());
    text.len() as u64
}

/// The board that a run file leaves.
pub fn left_by(input: &[u8]) -> Result<Board, Refusal> {
    decode(input).and_then(|run| played(&run))
}

fn run_drain(input: &[u8], limit: u64, out: &mut [i64]) -> u64 {
    let Ok(mut board) = left_by(input) else {
        return NONE;
    };
    if out.len() < FIGURES * usize::from(board.n) {
        return NONE;
    }
    let drained = board.drain(limit);
    let (count, _) = drained.expect("a board that was played is sound");
    let filled = board.books_of_all(out);
    filled.expect("the board is sound and there is room for all its sites");
    count
}

fn run_events(input: &[u8], numbers: &mut [u8]) -> u64 {
    let Ok(run) = decode(input) else { return NONE };
    let (mut board, started) = Board::start(run.n.into(), run.f.into(), run.matrix);
    if started.is_err() || numbers.len() < run.calls.len() {
        return NONE;
    }
    for (number, call) in numbers.iter_mut().zip(&run.calls) {
        let answer = board.apply_on_sound(call);
        *number = answer.map_or_else(|refusal| refusal.number(), |_| 0);
    }
    run.calls.len() as u64
}

fn call_changed(
    input: &[u8],
    place: u64,
    value: u64,
    event: &[u8],
    limit: u64,
    figures: &mut [i64],
    board: &mut [u64],
) -> u64 {
    let (Ok(before), Some(asked)) = (left_by(input), asked(event, limit)) else {
        return NONE;
    };
    let Some(out) = board.get_mut(..FILLED) else {
        return NONE;
    };
    let mut row = changed_row(&before, place, value);
    let back = call(&row, &asked, figures);
    if let Some(after) = back.board {
        write(&after, &mut row);
    }
    out[..NUMBERS].copy_from_slice(&row);
    out[NUMBERS..].copy_from_slice(&back.more);
    back.answer
}

/// The row of a board with one number changed. What has no meaning is 0.
fn changed_row(before: &Board, place: u64, value: u64) -> Vec<u64> {
    let mut row = vec![0; NUMBERS];
    write(before, &mut row);
    replaced(&row, place, value)
}

/// How a look-up is answered: a count, or 2^64 less the number of the refusal.
pub fn counted(looked: Result<usize, Refusal>) -> u64 {
    looked.map_or_else(
        |refusal| u64::from(refusal.number()).wrapping_neg(),
        |count| count as u64,
    )
}

/// The number of the refusal that a look-up is answered with; counts are far below such answers.
pub fn refusal_of(answer: u64) -> Option<u64> {
    let number = answer.wrapping_neg();
    (1..=255).contains(&number).then_some(number)
}

fn run_lookup(input: &[u8], pairs: &[u8], out: &mut [i64]) -> u64 {
    counted(left_by(input).and_then(|board| board.look_up(pairs, out)))
}

fn lookup_changed(input: &[u8], place: u64, value: u64, pairs: &[u8], out: &mut [i64]) -> u64 {
    let changed = left_by(input).and_then(|before| {
        let row = changed_row(&before, place, value);
        read_sound(&row).map_err(|_| Refusal::Unsound)
    });
    counted(changed.and_then(|board| board.look_up(pairs, out)))
}
