// Holds: questions that call_changed does not take at all: files refused, bytes that are no event, a short slice.
// Rests on: called, programs, questions; the model's generators of files.

use crate::called::{BOOKS, DRAIN};
use crate::programs::FILLED;
use crate::questions::Question;
use model::malform::{malformed_file, refused_file, FLAWS};
use model::numbers::NUMBERS;
use model::prng::Prng;
use model::runfile::{EVENT, UNCUT};
use model::{FIGURES, SITES};

/// Why a question is not taken.
pub const REASONS: [&str; 4] = ["malformed file", "refused start", "no event", "short board"];

/// A question that is not taken for one reason alone: its name, the file and the question. The call is one that would
/// change a slice, were it made.
pub fn untaken(rng: &mut Prng, file: &[u8]) -> (&'static str, Vec<u8>, Question) {
    let mut file = file.to_vec();
    let books = [BOOKS, 1, 2, 3, 4, 5, 6, 7, 8, 9];
    let mut question = Question {
        place: rng.below(NUMBERS as u64 + 9),
        value: rng.word(),
        event: rng.pick(&[books, offer(), [DRAIN; EVENT]]).to_vec(),
        limit: rng.word(),
        figures: FIGURES * SITES,
        board: FILLED + rng.below(2) as usize,
    };
    let name = rng.pick(&REASONS);
    match name {
        "malformed file" => {
            let flaw = rng.pick(&FLAWS);
            file = malformed_file(rng, 9, flaw);
        }
        "refused start" => file = refused_file(rng, 9),
        "no event" => question.event = no_event(rng),
        _ => {
            let less = rng.below(FILLED as u64) as usize;
            question.board = rng.pick(&[FILLED - 1, FILLED - 2, FILLED - 3, less, 0]);
        }
    }
    (name, file, question)
}

fn offer() -> [u8; EVENT] {
    [1, 0, 3, 1, 1, 0, 0, 0, 0, UNCUT]
}

/// Bytes of a wrong length, of a code that there is not, with an unused byte, or with a cut that may not be.
fn no_event(rng: &mut Prng) -> Vec<u8> {
    let code = rng.pick(&[DRAIN, BOOKS, 3, 4, 5]);
    let mut event = vec![code, 0, 0, 0, 0, 0, 0, 0, 0, UNCUT];
    match rng.below(4) {
        0 => event.resize(rng.pick(&[0, 1, 9, 11, 20]), UNCUT),
        1 => event[0] = rng.within(6, 254) as u8,
        2 => {
            event[0] = rng.within(2, 5) as u8;
            event[rng.within(5, 8) as usize] = rng.within(1, 255) as u8;
        }
        _ => {
            event[0] = rng.pick(&[3, 5]);
            event[9] = rng.below(UNCUT.into()) as u8;
        }
    }
    event
}
