// Holds: one look-up: what a program answers and leaves in the slice, held to the model and to what programs show otherwise.
// Rests on: programs, pairs, shown, outcome; the model's look-ups.

use crate::outcome::same;
use crate::pairs::Request;
use crate::programs::{counted, refusal_of};
use crate::shown::Shown;
use model::lookup::LINE;
use model::{Board, Refusal};

/// What a program has answered and left in the slice.
#[derive(Clone, Debug, PartialEq, Eq)]
pub struct Looked {
    pub answer: u64,
    slice: Vec<i64>,
}

/// Beforehand every number of the slice is another one, and lower than any figure: so a line at a wrong place shows,
/// and so does a number written where none should be.
pub fn look(request: &Request, program: impl FnOnce(&[u8], &mut [i64]) -> u64) -> Looked {
    let mut slice: Vec<i64> = (i64::MIN..).take(request.room).collect();
    let answer = program(&request.bytes, &mut slice);
    Looked { answer, slice }
}

/// The model's look-up on a board, or the refusal of what should have led to one.
pub fn model_looks(request: &Request, board: Result<&Board, Refusal>) -> Looked {
    look(request, |pairs, out| {
        counted(board.and_then(|board| board.look_up(pairs, out)))
    })
}

/// A count, or the number of a refusal.
fn told(answer: u64) -> String {
    let refused = |number| format!("refusal {number}");
    refusal_of(answer).map_or(answer.to_string(), refused)
}

impl Looked {
    pub fn accepted(&self) -> bool {
        refusal_of(self.answer).is_none()
    }

    /// The lines that an accepted look-up must fill.
    pub fn lines(&self, request: &Request) -> &[i64] {
        &self.slice[..LINE * request.pairs().len()]
    }

    /// Holds the answer and the whole slice to those of the model.
    pub fn compare(&self, wanted: &Looked) -> Result<(), String> {
        if self.answer != wanted.answer {
            let [is, wanted] = [self, wanted].map(|looked| told(looked.answer));
            return Err(format!("answers {is}, the model {wanted}"));
        }
        same("the slice", &self.slice, &wanted.slice)
    }

    /// Holds a look-up by value to this one, where nothing was replaced before.
    pub fn compare_unchanged(&self, by_value: &Looked) -> Result<(), String> {
        if by_value == self {
            return Ok(());
        }
        let [is, wanted] = [by_value, self].map(|looked| told(looked.answer));
        let words = "with nothing replaced lookup_changed does not do as run_lookup";
        Err(format!("{words}, the answers are {is} and {wanted}"))
    }

    /// Holds an accepted look-up to what is shown of the board.
    pub fn check(&self, request: &Request, shown: &Shown) -> Result<(), String> {
        shown.check(request.pairs(), self.answer, self.lines(request))
    }
}
