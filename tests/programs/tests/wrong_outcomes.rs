// Holds: the comparison of changed boards finds out a call_changed that hands back anything wrong.
// Rests on: programs, wrong, the model.

mod wrong;

use model::numbers::{log, site, DOWN, NUMBERS};
use model::row::read;
use model::{FIGURES, POSTINGS, SITES};
use programs::called::{BOOKS, DRAIN};
use programs::programs::FILLED;
use wrong::found;

/// Where a board whose log is not full has a number without meaning.
fn idle() -> usize {
    log(POSTINGS - 1)
}

fn refused(answer: u64) -> bool {
    (1..=16).contains(&answer)
}

/// One number changed, or the change itself forgotten.
#[test]
fn boards_of_refused_calls() {
    found(
        |given| {
            given.then(|given, answer| {
                if refused(answer) && given.changes() {
                    given.board[idle()] ^= 1;
                }
            })
        },
        &format!("refused, the row has 1 at {}, the model 0", idle()),
    );
    found(
        |given| {
            given.then(|given, answer| {
                if refused(answer) {
                    given.place = u64::MAX;
                    given.model();
                }
            })
        },
        "refused, the row has",
    );
}

/// The board that the file leaves is asked for by a call that is refused as 7.
#[test]
fn boards_left_by_files() {
    found(
        |given| {
            given.then(|given, answer| {
                if answer == 7 && !given.changes() {
                    given.board[DOWN] ^= 1;
                }
            })
        },
        "left by the file, the row has",
    );
}

/// A number that has a meaning, one that is too wide for its place, and the slots that are no sites.
#[test]
fn boards_of_accepted_calls() {
    found(
        |given| {
            given.then(|given, answer| {
                if answer == 0 && given.code() == Some(3) {
                    given.board[DOWN] ^= 1;
                }
            })
        },
        "at 3, not so the model",
    );
    found(
        |given| {
            given.then(|given, answer| {
                if answer == 0 {
                    given.board[idle()] |= 256;
                }
            })
        },
        &format!("the number at {} has more than 8 bits", idle()),
    );
    found(
        |given| {
            given.then(|given, answer| {
                if answer == 0 && given.code() != Some(BOOKS) {
                    let board = read(&given.board[..NUMBERS]).expect("the board is sound");
                    given.board[site(board.n.into(), 0)..site(SITES, 0)].fill(0);
                }
            })
        },
        "accepted, what follows the last site has 0",
    );
}

/// The last event of a drain left out, and a board that the books change where it has no meaning.
#[test]
fn boards_of_drains_and_books() {
    found(
        |given| {
            given.then(|given, answer| {
                let more = [given.board.get(NUMBERS), given.board.get(NUMBERS + 1)];
                let [Some(&ending), Some(&count)] = more else {
                    return;
                };
                if answer == 0 && given.code() == Some(DRAIN) && count > 0 {
                    given.limit = count - 1;
                    given.model();
                    given.board[NUMBERS..FILLED].copy_from_slice(&[ending, count]);
                }
            })
        },
        "accepted, the row has",
    );
    found(
        |given| {
            given.then(|given, answer| {
                if answer == 0 && given.code() == Some(BOOKS) {
                    given.board[idle()] ^= 1;
                }
            })
        },
        "shown, the row has",
    );
}

/// An offer's number, a drain's count, what a refused call leaves there, and what lies beyond.
#[test]
fn numbers_after_the_row() {
    found(
        |given| {
            given.then(|given, answer| {
                if answer == 0 && given.code() == Some(1) {
                    given.board[NUMBERS] += 1;
                }
            })
        },
        "after the row it has",
    );
    found(
        |given| {
            given.then(|given, answer| {
                if answer == 0 && given.code() == Some(DRAIN) {
                    given.board[NUMBERS + 1] += 1;
                }
            })
        },
        "after the row it has",
    );
    found(
        |given| {
            given.then(|given, answer| {
                if refused(answer) && given.changes() {
                    given.board[NUMBERS + 1] = answer;
                }
            })
        },
        "after the row it has",
    );
    found(
        |given| given.then(|given, _| given.board.iter_mut().skip(FILLED).for_each(|x| *x = 0)),
        "beyond the filled part it has 0 at 0",
    );
}

/// A wrong figure, part of the books where they are refused, and figures that another call changes.
#[test]
fn figures() {
    found(
        |given| {
            given.then(|given, answer| {
                if answer == 0 && given.code() == Some(BOOKS) {
                    given.figures[FIGURES - 1] += 1;
                }
            })
        },
        "the slice of figures has 1 at 63, the model 0",
    );
    found(
        |given| {
            given.then(|given, answer| {
                if answer == 16 {
                    given.figures.fill(0);
                }
            })
        },
        "the slice of figures has 0 at 0",
    );
    found(
        |given| {
            given.then(|given, answer| {
                if answer == 0 && given.code() == Some(DRAIN) {
                    given.figures.fill(0);
                }
            })
        },
        "the slice of figures has 0 at 0",
    );
}
