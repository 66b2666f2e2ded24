// Holds: the program `board` as a function from its input to the text it prints.
// Rests on: runfile, board, call, drain, refusal.

use crate::board::Board;
use crate::refusal::Refusal;
use crate::runfile::{decode, Run};
use std::fmt::Write;

pub fn run(input: &[u8]) -> String {
    match decode(input).and_then(|run| play(&run)) {
        Ok(text) => text,
        Err(refusal) => format!("F {}\n", refusal.number()),
    }
}

/// The text of a run whose start is accepted. The board is not judged at each event: a started board
/// is sound and stays so.
fn play(run: &Run) -> Result<String, Refusal> {
    let (mut board, started) = Board::start(run.n.into(), run.f.into(), run.matrix);
    started?;
    let mut text = String::new();
    for (k, call) in run.calls.iter().enumerate() {
        let answer = board.apply_on_sound(call);
        let _ = match answer {
            Ok(_) => writeln!(text, "E {} ok", k + 1),
            Err(refusal) => writeln!(text, "E {} no {}", k + 1, refusal.number()),
        };
    }
    show(&board, &mut text);
    Ok(text)
}

/// The lines S, L and Q.
pub fn show(board: &Board, text: &mut String) {
    for site in 0..usize::from(board.n) {
        let state = if board.is_up(site) { "up" } else { "down" };
        let _ = write!(text, "S {site} {state}");
        list(&board.sites[site].record, text);
    }
    text.push('L');
    list(&board.log, text);
    text.push_str(if board.is_quiet() {
        "Q yes\n"
    } else {
        "Q no\n"
    });
}

/// The items, each after one space, and the end of the line.
fn list(items: &[u8], text: &mut String) {
    for item in items {
        let _ = write!(text, " {item}");
    }
    text.push('\n');
}
