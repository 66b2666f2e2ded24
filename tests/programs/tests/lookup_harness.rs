// Holds: the comparison of look-ups passes the model, meets enough on the way, and finds out wrong counts, lines and writes.
// Rests on: programs, wrong_look, the model.

mod wrong_look;

use model::lookup::LINE;
use model::{Board, Refusal, POSTINGS};
use programs::enough::{line, missing};
use programs::lookups::compare_all;
use programs::programs::MODEL;
use text::statement::DRAIN;
use wrong_look::{changed, found, pairs_of};

#[test]
fn the_model_agrees_with_itself() {
    let counts = compare_all(&MODEL, 1).unwrap_or_else(|cause| panic!("{cause}"));
    assert_eq!(missing(&counts), [""; 0], "{}", line(&counts));
}

fn length(board: &Board, site: u8) -> usize {
    board.sites[usize::from(site)].record.len()
}

fn is_named(bytes: &[u8], site: u8) -> bool {
    pairs_of(bytes).iter().any(|pair| pair[0] == site)
}

/// All sites counted, one place less, and sites as often as they are named.
#[test]
fn wrong_counts() {
    found(
        |board, bytes, out| {
            let all = (0..board.n).map(|s| length(board, s)).sum();
            board.look_up(bytes, out).map(|_| all)
        },
        "answers ",
    );
    found(
        |board, bytes, out| {
            let count = board.look_up(bytes, out)?;
            Ok(count.saturating_sub(1))
        },
        "answers ",
    );
    found(
        |board, bytes, out| {
            board.look_up(bytes, out)?;
            let pairs = pairs_of(bytes).iter();
            Ok(pairs.map(|pair| length(board, pair[0])).sum())
        },
        "answers ",
    );
}

/// A count in one byte, empty records as one place, and sites that are down left out.
#[test]
fn wrong_counts_of_some_records() {
    found(
        |board, bytes, out| board.look_up(bytes, out).map(|count| count % POSTINGS),
        "answers ",
    );
    found(
        |board, bytes, out| {
            let empty = |s: &u8| is_named(bytes, *s) && length(board, *s) == 0;
            let count = board.look_up(bytes, out)?;
            Ok(count + (0..board.n).filter(empty).count())
        },
        "answers ",
    );
    found(
        |board, bytes, out| {
            let up = |s: &u8| is_named(bytes, *s) && board.is_up((*s).into());
            board.look_up(bytes, out)?;
            let counted = (0..board.n).filter(up);
            Ok(counted.map(|s| length(board, s)).sum())
        },
        "answers ",
    );
}

/// The lines of other bytes, with the answer to these.
fn lines_of(board: &Board, bytes: &[u8], other: &[u8], out: &mut [i64]) -> Result<usize, Refusal> {
    let count = board.look_up(bytes, out)?;
    let given = board.look_up(other, out);
    given.expect("there are no more pairs, and all are those of the board");
    Ok(count)
}

/// Lines in the order of sites, those of the account before, and of the site next to it.
#[test]
fn lines_of_other_pairs() {
    found(
        |board, bytes, out| {
            let mut pairs = pairs_of(bytes).to_vec();
            pairs.sort_by_key(|pair| pair[0]);
            lines_of(board, bytes, pairs.as_flattened(), out)
        },
        "the slice has ",
    );
    found(
        |board, bytes, out| {
            let mut before = None;
            let other = changed(bytes, |pair| {
                let account = before.replace(pair[1]);
                pair[1] = account.unwrap_or(pair[1]);
            });
            lines_of(board, bytes, &other, out)
        },
        "the slice has ",
    );
    found(
        |board, bytes, out| {
            let other = changed(bytes, |pair| pair[0] = pair[0].wrapping_add(1) % board.n);
            lines_of(board, bytes, &other, out)
        },
        "the slice has ",
    );
}

/// No line where a pair comes again, and position and rate exchanged.
#[test]
fn lines_not_as_they_should_be() {
    found(
        |board, bytes, out| {
            let before = out.to_vec();
            let count = board.look_up(bytes, out)?;
            let pairs = pairs_of(bytes);
            for k in (1..pairs.len()).filter(|&k| pairs[..k].contains(&pairs[k])) {
                let line = LINE * k..LINE * (k + 1);
                out[line.clone()].copy_from_slice(&before[line]);
            }
            Ok(count)
        },
        "the slice has -9223372036854775",
    );
    found(
        |board, bytes, out| {
            let count = board.look_up(bytes, out)?;
            let lines = out.chunks_mut(LINE).take(pairs_of(bytes).len());
            lines.for_each(|line| line.swap(0, 1));
            Ok(count)
        },
        "the slice has ",
    );
}

/// The lines of another board, with the answer on this one.
fn lines_on(board: &Board, other: &Board, bytes: &[u8], out: &mut [i64]) -> Result<usize, Refusal> {
    let count = board.look_up(bytes, out)?;
    other
        .look_up(bytes, out)
        .expect("the other board has the same sites");
    Ok(count)
}

/// A record without its last place, nothing at sites that are down, and the board once it is quiet.
#[test]
fn lines_of_other_boards() {
    found(
        |board, bytes, out| {
            let mut other = board.clone();
            other.sites.iter_mut().for_each(|site| {
                site.record.pop();
            });
            lines_on(board, &other, bytes, out)
        },
        "the slice has ",
    );
    found(
        |board, bytes, out| {
            let mut other = board.clone();
            for s in (0..board.n.into()).filter(|&s| !board.is_up(s)) {
                other.sites[s].record.clear();
            }
            lines_on(board, &other, bytes, out)
        },
        "the slice has 0 at ",
    );
    found(
        |board, bytes, out| {
            let mut other = board.clone();
            other.drain(DRAIN).expect("the board is sound");
            lines_on(board, &other, bytes, out)
        },
        "the slice has ",
    );
}

/// Writes the first number where a look-up is refused with this number.
fn writes_refused<const NUMBER: u8>(
    board: &Board,
    bytes: &[u8],
    out: &mut [i64],
) -> Result<usize, Refusal> {
    board.look_up(bytes, out).inspect_err(|refusal| {
        if refusal.number() == NUMBER {
            out.iter_mut().take(1).for_each(|first| *first = 0);
        }
    })
}

/// One number beyond the lines, and the first number where the look-up is refused.
#[test]
fn wrong_writes() {
    found(
        |board, bytes, out| {
            let count = board.look_up(bytes, out)?;
            if let Some(beyond) = out.get_mut(LINE * pairs_of(bytes).len()) {
                *beyond = 0;
            }
            Ok(count)
        },
        "the slice has 0 at ",
    );
    found(writes_refused::<7>, "the slice has 0 at 0");
    found(writes_refused::<18>, "the slice has 0 at 0");
}
