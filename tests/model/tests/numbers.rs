// Holds: boards as rows of numbers: widths, to and fro, what has no meaning, and rows that are no board.
// Rests on: the model, common.

mod common;

use common::{rich, start, DRAIN, MISUSES};
use model::gen::{legal_start, mix_for, next_call, random_mix};
use model::meaning::{differs, write};
use model::numbers::*;
use model::prng::Prng;
use model::row::{read, read_sound};
use model::*;

fn row_of(board: &Board) -> Vec<u64> {
    let mut row = vec![0; NUMBERS];
    write(board, &mut row);
    row
}

fn played(rng: &mut Prng, events: usize) -> Board {
    let (n, f, matrix) = legal_start(rng);
    let mix = mix_for(rng, events);
    let mut board = Board::start(n.into(), f.into(), matrix).0;
    for _ in 0..events {
        let call = next_call(rng, &board, &mix);
        let _ = board.apply_on_sound(&call);
    }
    board
}

/// The table once more, as a list of how many numbers of which width follow each other.
#[test]
fn widths_are_those_of_the_table() {
    let mut widths = vec![8, 8, 16, 8, 64];
    let mut add = |times: usize, part: &[u32]| widths.extend(part.repeat(times));
    add(256, &[8, 8, 8, 8, 32]);
    for _ in 0..7 {
        add(5 * 4, &[64]);
        add(512, &[8]);
        add(2, &[64]);
        add(256, &[8]);
    }
    add(256, &[8, 8, 64, 64, 64, 64]);
    add(4 * 256 * 7 + 256 * 7, &[8]);
    add(4 * 256 * 7 + 4 + 4 * 256 + 1, &[64]);
    add(256, &[8]);
    assert_eq!((widths.len(), NUMBERS), (25764, 25764));
    assert!((0..NUMBERS).map(width).eq(widths));
    let places = [third(0, 0), to(0, 0, 0), good(0, 0), carried(0, 0), POOL];
    assert_eq!(places, [6815, 8351, 15519, 17311, 24479]);
    let places = [posting(255, 4), site(6, 789), entry(0), LOGGED, log(255)];
    assert_eq!(places, [1284, 6814, 24483, 25507, 25763]);
    let ends = [third(255, PARTS), carried(255, 7), entry(256)];
    assert_eq!(ends, [to(0, 0, 0), POOL, LOGGED]);
}

#[test]
fn to_and_fro() {
    let mut rng = Prng::new(21);
    let mut boards: Vec<Board> = (0..200).map(|k| played(&mut rng, 3 * k)).collect();
    boards.extend([rich(), start(3, 1)]);
    for board in boards {
        let mut row = row_of(&board);
        assert_eq!(differs(&row, &board), None);
        assert_eq!(read(&row).as_ref(), Ok(&board));
        for (place, number) in row.iter_mut().enumerate() {
            assert_eq!(fitted(place, *number), *number);
            *number |= rng.word() & !fitted(place, u64::MAX);
        }
        assert_eq!(read_sound(&row), Ok(board));
    }
}

/// Whatever stands where nothing has a meaning, the row is the same board and does the same.
#[test]
fn what_has_no_meaning_makes_no_difference() {
    let mut rng = Prng::new(22);
    for k in 0..200 {
        let mut board = played(&mut rng, k);
        let mut row: Vec<u64> = (0..NUMBERS).map(|p| fitted(p, rng.word())).collect();
        write(&board, &mut row);
        assert_eq!(differs(&row, &board), None);
        let mut other = read_sound(&row).unwrap();
        let mix = random_mix(&mut rng);
        for _ in 0..40 {
            let call = next_call(&mut rng, &board, &mix);
            assert_eq!(board.apply(&call), other.apply(&call));
        }
        write(&other, &mut row);
        assert_eq!(differs(&row, &board), None);
        assert_eq!(board.drain(DRAIN), other.drain(DRAIN));
        write(&other, &mut row);
        assert_eq!(differs(&row, &board), None);
    }
}

/// A number changed is found at its place, or it has no meaning.
#[test]
fn every_number_is_held_against_the_board() {
    let board = rich();
    let row = row_of(&board);
    let idle = |place: usize, bit: u32| {
        let changed = replaced(&row, place as u64, row[place] ^ 1 << bit);
        let found = differs(&changed, &board);
        assert!(found.is_none_or(|at| at == place), "{place}");
        found.is_none()
    };
    let count = |bit| (0..NUMBERS).filter(|&place| idle(place, bit)).count();
    let beyond = 5 * 253 + 4 * 790 + (256 - 2) + (256 - 1) + (256 - 1) + (256 - 1);
    let in_flight = |form: usize| board.flight.to[form].as_flattened().iter();
    let seconds = in_flight(SECOND).filter(|&to| to & 1 == 1).count();
    let thirds = in_flight(THIRD).filter(|&to| *to != 0).count();
    let beside = (1792 - seconds) + 4 * (1792 - thirds) + 4 * (256 - 2);
    assert!(thirds > 0);
    assert_eq!(count(0), beyond + beside);
}

#[test]
fn rows_that_are_no_board() {
    let row = row_of(&rich());
    let with = |place: usize, value: u64| read(&replaced(&row, place as u64, value)).err();
    assert_eq!(with(OFFERED, 256), None);
    assert_eq!(with(OFFERED, 257), Some(Cause::TooMany));
    assert_eq!(with(OFFERED, u64::MAX), Some(Cause::TooMany));
    assert_eq!(with(posting(2, OWNER), 7), Some(Cause::Owner));
    assert_eq!(with(posting(3, OWNER), 7), None);
    assert_eq!(with(site(1, DELIVERED), 256), None);
    assert_eq!(with(site(1, DELIVERED), 257), Some(Cause::Twice));
    assert_eq!(with(site(3, DELIVERED), 257), None);
    assert_eq!(with(LOGGED, 256), None);
    assert_eq!(with(LOGGED, 257), Some(Cause::Twice));
    assert_eq!(with(LOGGED, 1 << 63), Some(Cause::Twice));
    for part in 0..PARTS {
        assert_eq!(with(third(2, part), 4), None);
        assert_eq!(with(third(3, part), 4), Some(Cause::NotOffered));
    }
    assert_eq!(with(NUMBERS, 255), None);
}

/// 255 fits the width of an account; in a row too it is sound in a NET of the whole house alone.
#[test]
fn the_mark_of_every_account_in_a_row() {
    let with = |kind: u8, a: u8, b: u8, amount: u32| {
        let mut row = row_of(&rich());
        let fields = [kind.into(), a.into(), b.into(), amount.into()];
        row[posting(2, OWNER + 1)..=posting(2, AMOUNT)].copy_from_slice(&fields);
        row
    };
    let row = with(3, 255, 255, 0);
    let board = read_sound(&row).unwrap();
    assert!(nets_house(&board.postings[2]));
    assert_eq!(row_of(&board), row);
    for (kind, a, b, amount) in MISUSES {
        let answer = read_sound(&with(kind, a, b, amount));
        assert_eq!(answer, Err(Cause::Fields), "{kind} {a} {b} {amount}");
    }
}

/// Each cause once more, in a row with one number changed.
#[test]
fn each_cause_in_a_row() {
    let row = row_of(&rich());
    let shown = [
        (N, 2, Cause::Start),
        (posting(0, OWNER), 3, Cause::Owner),
        (posting(0, AMOUNT), 0, Cause::Fields),
        (to(THIRD, 0, 1), 3, Cause::ThirdElsewhere),
        (OFFERED, 257, Cause::TooMany),
        (OFFERED, 2, Cause::NotOffered),
        (site(2, HEARD + 255), 1, Cause::NotOffered),
        (site(1, TOLD + 1), 1, Cause::NotOffered),
        (third(2, UNION + 2), 1, Cause::NotOffered),
        (carried(1, 0) + 3, 1 << 63, Cause::NotOffered),
        (entry(1) + 1, 1, Cause::NotOffered),
        (POOL + 3, 1, Cause::NotOffered),
        (third(2, 0), 8, Cause::NoSuchSite),
        (site(0, RECORD + 1), 0, Cause::Twice),
        (site(1, READ), 2, Cause::PastLog),
        (site(1, FINISHED), 0, Cause::NotFinished),
        (POOL, 6, Cause::PoolAndLog),
    ];
    for (place, value, cause) in shown {
        let changed = replaced(&row, place as u64, value);
        assert_eq!(read_sound(&changed), Err(cause));
    }
    assert!(CAUSES.iter().all(|c| shown.iter().any(|(_, _, x)| x == c)));
}
