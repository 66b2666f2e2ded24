// Holds: what the model does with a row of numbers and a call, as `call_changed` does once it has changed the row.
// Rests on: the model.

use model::row::read_sound;
use model::runfile::{decode_event, EVENT};
use model::{Answer, Board, Call, Cause, Ending, Refusal};

/// The codes that a run file does not have.
pub const DRAIN: u8 = 0;
pub const BOOKS: u8 = 255;

/// What is asked of the board.
#[derive(Clone, Copy, Debug, PartialEq, Eq)]
pub enum Asked {
    Event(Call),
    /// A drain with this limit.
    Drain(u64),
    /// The books of all sites.
    Books,
}

/// None if the bytes are no event.
pub fn asked(event: &[u8], limit: u64) -> Option<Asked> {
    let event: &[u8; EVENT] = event.try_into().ok()?;
    match event[0] {
        DRAIN => Some(Asked::Drain(limit)),
        BOOKS => Some(Asked::Books),
        _ => decode_event(event).map(Asked::Event),
    }
}

/// What comes back from a call.
#[derive(Clone, Debug)]
pub struct Back {
    /// The number of the refusal, 0 if the call was accepted.
    pub answer: u64,
    /// The board after an accepted call. After a refused one it is the row handed in, number for number.
    pub board: Option<Board>,
    /// The two numbers after the row.
    pub more: [u64; 2],
    /// Why the row is unsound, if it is.
    pub cause: Option<Cause>,
}

impl Back {
    fn refused(refusal: Refusal, cause: Option<Cause>) -> Back {
        Back {
            answer: refusal.number().into(),
            board: None,
            more: [0, 0],
            cause,
        }
    }
}

pub fn call(row: &[u64], asked: &Asked, figures: &mut [i64]) -> Back {
    let mut board = match read_sound(row) {
        Ok(board) => board,
        Err(cause) => return Back::refused(Refusal::Unsound, Some(cause)),
    };
    let done = match asked {
        Asked::Event(call) => board.apply_on_sound(call).map(|answer| match answer {
            Answer::Offered(m) => [m.into(), 0],
            Answer::Done => [0, 0],
        }),
        Asked::Drain(limit) => {
            let drained = board.drain(*limit);
            drained.map(|(count, ending)| [u64::from(ending == Ending::Spent), count])
        }
        Asked::Books => board.books_of_all(figures).map(|()| [0, 0]),
    };
    match done {
        Ok(more) => Back {
            answer: 0,
            board: Some(board),
            more,
            cause: None,
        },
        Err(refusal) => Back::refused(refusal, None),
    }
}
