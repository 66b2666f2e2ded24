// Holds: one question put to call_changed, and what came of it held to what the model makes of the changed row.
// Rests on: programs, called, questions; the model's rows.

use crate::called::{asked, call, Asked, Back};
use crate::programs::{Programs, FILLED, NONE};
use crate::questions::Question;
use model::meaning::differs;
use model::numbers::{fitted, site, width, NUMBERS};
use model::SITES;
use std::fmt::Debug;

/// What stands in lent slices beforehand.
const FIGURE: i64 = -0x5A5A_5A5A;
const WORD: u64 = 0xA5A5_A5A5_A5A5_A5A5;

/// What a program has answered and left in the slices.
pub struct Outcome {
    answer: u64,
    figures: Vec<i64>,
    board: Vec<u64>,
}

pub fn ask(programs: &Programs, file: &[u8], question: &Question) -> Outcome {
    let mut figures = vec![FIGURE; question.figures];
    let mut board = vec![WORD; question.board];
    let answer = (programs.call_changed)(
        file,
        question.place,
        question.value,
        &question.event,
        question.limit,
        &mut figures,
        &mut board,
    );
    Outcome {
        answer,
        figures,
        board,
    }
}

/// Two slices of one length; the error names the first place where they differ.
pub(crate) fn same<T: PartialEq + Debug>(what: &str, is: &[T], wanted: &[T]) -> Result<(), String> {
    match is.iter().zip(wanted).position(|(x, y)| x != y) {
        Some(at) => Err(format!(
            "{what} has {:?} at {at}, the model {:?}",
            is[at], wanted[at]
        )),
        None => Ok(()),
    }
}

impl Outcome {
    /// The row handed back.
    pub fn row(&self) -> &[u64] {
        &self.board[..NUMBERS]
    }

    /// Compares all of it. What the model was asked and gave back is returned.
    pub fn compare(&self, question: &Question, changed: &[u64]) -> Result<(Asked, Back), String> {
        let asked = asked(&question.event, question.limit).expect("the bytes are an event");
        let mut figures = vec![FIGURE; question.figures];
        let back = call(changed, &asked, &mut figures);
        if self.answer != back.answer {
            let (is, wanted) = (self.answer, back.answer);
            let cause = back.cause.map_or(String::new(), |c| format!(", {c:?}"));
            return Err(format!("answers {is}, the model {wanted}{cause}"));
        }
        same("the slice of figures", &self.figures, &figures)?;
        let (more, beyond) = self.board[NUMBERS..].split_at(FILLED - NUMBERS);
        same("after the row it", more, &back.more)?;
        let stays = vec![WORD; beyond.len()];
        same("beyond the filled part it", beyond, &stays)?;
        self.compare_row(&asked, &back, changed)?;
        Ok((asked, back))
    }

    /// A refused call hands the row back number for number, and so do the books. Else what has a meaning is compared,
    /// and the slots that are no sites must stay.
    fn compare_row(&self, asked: &Asked, back: &Back, changed: &[u64]) -> Result<(), String> {
        let row = self.row();
        let too_wide = |&place: &usize| row[place] != fitted(place, row[place]);
        if let Some(place) = (0..NUMBERS).find(too_wide) {
            let bits = width(place);
            return Err(format!("the number at {place} has more than {bits} bits"));
        }
        let board = match &back.board {
            None => return same("refused, the row", row, changed),
            Some(_) if *asked == Asked::Books => return same("shown, the row", row, changed),
            Some(board) => board,
        };
        if let Some(place) = differs(row, board) {
            let is = row[place];
            let words = "accepted, the row has";
            return Err(format!("{words} {is} at {place}, not so the model"));
        }
        let slots = site(board.n.into(), 0)..site(SITES, 0);
        let stays = &changed[slots.clone()];
        same("accepted, what follows the last site", &row[slots], stays)
    }

    /// Nothing was taken, and both slices stay.
    pub fn compare_untaken(&self) -> Result<(), String> {
        if self.answer != NONE {
            return Err(format!("answers {} to what it cannot take", self.answer));
        }
        let stays = vec![FIGURE; self.figures.len()];
        same("not taken, the slice of figures", &self.figures, &stays)?;
        let stays = vec![WORD; self.board.len()];
        same("not taken, the slice of the board", &self.board, &stays)
    }
}
