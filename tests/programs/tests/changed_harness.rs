// Holds: the comparison of changed boards passes programs that do as the model does, and meets enough on the way.
// Rests on: programs, the model.

use model::meaning::write;
use model::numbers::{fitted, replaced, site, NUMBERS};
use model::SITES;
use programs::called::{asked, call, Asked};
use programs::changed::compare_all;
use programs::programs::{left_by, Programs, FILLED, MODEL, NONE};

fn passes(programs: &Programs, seed: u64) {
    let counts = compare_all(programs, seed).unwrap_or_else(|cause| panic!("{cause}"));
    assert_eq!(counts.missing(), [""; 0], "{}", counts.line());
}

#[test]
fn the_model_agrees_with_itself() {
    passes(&MODEL, 1);
}

/// A row of numbers at random, with the same ones for the same seed.
fn any_row(seed: u64) -> Vec<u64> {
    let mut rng = model::prng::Prng::new(seed);
    (0..NUMBERS)
        .map(|place| fitted(place, rng.word()))
        .collect()
}

/// Does as the model does, and leaves anything where a number has no meaning.
fn careless(
    input: &[u8],
    place: u64,
    value: u64,
    event: &[u8],
    limit: u64,
    figures: &mut [i64],
    board: &mut [u64],
) -> u64 {
    let (Ok(before), Some(asked)) = (left_by(input), asked(event, limit)) else {
        return NONE;
    };
    let Some(out) = board.get_mut(..FILLED) else {
        return NONE;
    };
    let mut row = any_row(8);
    write(&before, &mut row);
    row = replaced(&row, place, value);
    let back = call(&row, &asked, figures);
    if let Some(after) = back.board.filter(|_| asked != Asked::Books) {
        let slots = site(after.n.into(), 0)..site(SITES, 0);
        let mut other = any_row(9);
        other[slots.clone()].copy_from_slice(&row[slots]);
        write(&after, &mut other);
        row = other;
    }
    out[..NUMBERS].copy_from_slice(&row);
    out[NUMBERS..].copy_from_slice(&back.more);
    back.answer
}

#[test]
fn numbers_without_meaning_make_no_difference() {
    let programs = Programs {
        call_changed: careless,
        ..MODEL
    };
    passes(&programs, 1);
}
