// Holds: the statement of a run: once the board is quiet, the books of every site, account by account.
// Rests on: the model's run files, boards, drain and books.

use model::{decode, Board, Refusal, Run, ACCOUNTS, FIGURES, SITES};
use std::fmt::Write;

/// A drain with this limit ends quiet on every board that a run reaches.
pub const DRAIN: u64 = 27_136;

/// What the program `statement` prints. Refused input prints what `board` prints.
pub fn statement(input: &[u8]) -> String {
    let mut board = match decode(input).and_then(|run| played(&run)) {
        Ok(board) => board,
        Err(refusal) => return format!("F {}\n", refusal.number()),
    };
    board
        .drain(DRAIN)
        .expect("a board that was played is sound");
    table(&board)
}

/// The board after the events of a run whose start is accepted.
pub fn played(run: &Run) -> Result<Board, Refusal> {
    let (mut board, started) = Board::start(run.n.into(), run.f.into(), run.matrix);
    started?;
    for call in &run.calls {
        let _ = board.apply_on_sound(call);
    }
    Ok(board)
}

/// The books of a sound board's sites, and whether those that are up agree.
pub fn table(board: &Board) -> String {
    let mut figures = [0; FIGURES * SITES];
    let filled = board.books_of_all(&mut figures);
    filled.expect("the board is sound and there is room for all its sites");
    let books: &[[i64; FIGURES]] = figures.as_chunks().0;
    let n = usize::from(board.n);
    let mut text = String::new();
    for (site, figures) in books[..n].iter().enumerate() {
        let state = if board.is_up(site) { "up" } else { "down" };
        let _ = writeln!(text, "Site {site} {state}");
        show(figures, &mut text);
    }
    let mut shown_up = (0..n).filter(|&site| board.is_up(site)).map(|s| books[s]);
    let first = shown_up.next();
    text += if shown_up.all(|figures| Some(figures) == first) {
        "All sites that are up show the same figures.\n"
    } else {
        "Sites that are up show different figures.\n"
    };
    text
}

/// The accounts that are not all zeros, a line each, or a line that says there are none.
fn show(figures: &[i64; FIGURES], text: &mut String) {
    let accounts: &[[i64; FIGURES / ACCOUNTS]] = figures.as_chunks().0;
    for (k, [position, rate, called, settled]) in accounts.iter().enumerate() {
        if accounts[k] != [0; 4] {
            let _ = writeln!(
                text,
                "account {k} position {position} rate {rate} called {called} settled {settled}"
            );
        }
    }
    if *figures == [0; FIGURES] {
        text.push_str("no figures\n");
    }
}
