// Holds: the comparison of changed boards finds out a call_changed that takes what it should not, or takes it wrongly.
// Rests on: programs, wrong, the model.

mod wrong;

use model::board::judge_start;
use model::numbers::{fitted, NUMBERS};
use model::row::read_sound;
use model::{Refusal, CAUSES};
use programs::called::{BOOKS, DRAIN};
use programs::programs::{CallsChanged, FILLED, MODEL, NONE};
use wrong::{found, found_in};

/// Answers 0 to a board that is unsound by one cause.
fn lenient<const CAUSE: usize>(
    input: &[u8],
    place: u64,
    value: u64,
    event: &[u8],
    limit: u64,
    figures: &mut [i64],
    board: &mut [u64],
) -> u64 {
    let answer = (MODEL.call_changed)(input, place, value, event, limit, figures, board);
    match answer {
        6 if read_sound(&board[..NUMBERS]).err() == Some(CAUSES[CAUSE]) => 0,
        _ => answer,
    }
}

#[test]
fn unsound_boards() {
    let programs: [CallsChanged; CAUSES.len()] = [
        lenient::<0>,
        lenient::<1>,
        lenient::<2>,
        lenient::<3>,
        lenient::<4>,
        lenient::<5>,
        lenient::<6>,
        lenient::<7>,
        lenient::<8>,
        lenient::<9>,
        lenient::<10>,
    ];
    for (program, cause) in programs.into_iter().zip(CAUSES) {
        found_in(program, &format!("answers 0, the model 6, {cause:?}"));
    }
}

/// A cut passed over, before the refusals or after them.
#[test]
fn cuts() {
    found(
        |given| {
            if given.may_be_cut() {
                given.event[9] = 255;
            }
            given.model()
        },
        "answers 0, the model 1",
    );
    found(
        |given| {
            given.then(|given, answer| {
                if answer == 0 && given.may_be_cut() {
                    given.event[9] = 255;
                    given.model();
                }
            })
        },
        "accepted, the row has",
    );
}

/// A value that is as large as its place allows instead of modulo its width, or that is not replaced at all.
#[test]
fn values() {
    found(
        |given| {
            if given.changes() {
                let most = fitted(given.place as usize, u64::MAX);
                given.value = given.value.min(most);
            }
            given.model()
        },
        "the model",
    );
    found(
        |given| {
            given.place = u64::MAX;
            given.model()
        },
        "the model",
    );
}

/// Places past the last taken modulo the length of a row, or in their low bits alone.
#[test]
fn places() {
    found(
        |given| {
            given.place %= NUMBERS as u64;
            given.model()
        },
        "the model",
    );
    found(
        |given| {
            given.place %= 1 << 32;
            given.model()
        },
        "the model",
    );
}

#[test]
fn limits_and_codes() {
    found(
        |given| {
            given.limit = given.limit.max(1);
            given.model()
        },
        "after the row it has",
    );
    found(
        |given| match given.event[..] {
            [DRAIN | BOOKS, 1..=255, ..] => NONE,
            _ => given.model(),
        },
        "answers 18446744073709551615, the model",
    );
    found(
        |given| {
            given.event.truncate(10);
            given.model()
        },
        "no event: answers",
    );
    found(
        |given| {
            if let [3 | 5, .., cut] = &mut given.event[..] {
                *cut = 255;
            }
            given.model()
        },
        "no event: answers",
    );
}

#[test]
fn files() {
    found(
        |given| {
            let whole = given.input.len().saturating_sub(9) / 10 * 10 + 9;
            given.input.truncate(whole);
            given.model()
        },
        "malformed file: answers",
    );
    found(
        |given| {
            let start = model::decode(&given.input)
                .map(|run| judge_start(run.n.into(), run.f.into(), run.matrix));
            match given.model() {
                NONE if start == Ok(Err(Refusal::CrashCount)) => 6,
                answer => answer,
            }
        },
        "refused start: answers 6",
    );
}

#[test]
fn slices_of_what_is_not_taken() {
    found(
        |given| {
            if given.board.len() < FILLED {
                given.board.fill(0);
            }
            given.model()
        },
        "short board: not taken, the slice of the board has 0 at 0",
    );
    found(
        |given| {
            given.then(|given, answer| {
                if answer == NONE && given.code() == Some(BOOKS) {
                    given.figures.fill(0);
                }
            })
        },
        "not taken, the slice of figures has 0 at 0",
    );
}
