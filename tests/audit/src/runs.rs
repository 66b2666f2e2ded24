// Holds: the records of real runs: run files played by the model, event by event.
// Rests on: handed; the model's boards and run files, and the sorts of run files of tests/programs.

use crate::handed::Handed;
use model::{decode, Board};
use programs::files::{numbers, Sort, SORTS};

/// Those of the sorts of run files whose runs are not refused from the start: cuts and crashes, odd arguments, full
/// records among them.
pub fn sorts() -> &'static [Sort] {
    &SORTS[..10]
}

/// The records of a board's sites.
pub fn handed_over(board: &Board) -> Handed {
    let mut handed = Handed::new(board.matrix, &board.postings);
    for site in &board.sites[..usize::from(board.n)] {
        let record: Vec<u16> = site.record.iter().map(|&m| m.into()).collect();
        handed.record_of(&record);
    }
    handed
}

/// The kth file of a sort.
pub fn file(seed: u64, sort: &Sort, k: usize) -> Vec<u8> {
    sort.file(&mut numbers(seed, sort, k), k)
}

/// Plays a run file and shows the board before the first event and after every one. Handed back is the last board; a
/// refused start has none.
pub fn play(file: &[u8], mut show: impl FnMut(&Board)) -> Option<Board> {
    let run = decode(file).ok()?;
    let (mut board, started) = Board::start(run.n.into(), run.f.into(), run.matrix);
    started.ok()?;
    show(&board);
    for call in &run.calls {
        let _ = board.apply_on_sound(call);
        show(&board);
    }
    Some(board)
}
