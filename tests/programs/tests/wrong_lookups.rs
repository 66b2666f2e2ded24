// Holds: the comparison of look-ups finds out those that refuse what they should not, or take what they should refuse.
// Rests on: programs, wrong_look, the model.

mod wrong_look;

use model::lookup::{LINE, PAIRS};
use model::{Refusal, ACCOUNTS};
use programs::pairs::Pair;
use programs::programs::{counted, left_by, Programs, MODEL};
use programs::stack::on_large_stack;
use wrong_look::{changed, found, found_in, pairs_of};

/// 257 pairs accepted, so many that their count in two bytes is small enough, 256 refused, and none refused.
#[test]
fn wrong_numbers_of_pairs() {
    found(
        |board, bytes, out| match pairs_of(bytes).len() {
            257 if out.len() >= LINE * 257 => {
                let (bytes, last) = bytes.split_at(2 * PAIRS);
                let (out, line) = out.split_at_mut(LINE * PAIRS);
                board.look_up(last, &mut [0; LINE])?;
                let count = board.look_up(bytes, out)?;
                board.look_up(last, line)?;
                Ok(count)
            }
            _ => board.look_up(bytes, out),
        },
        ", the model refusal 18",
    );
    found(
        |board, bytes, out| {
            let few = pairs_of(bytes).len() % (1 << 16);
            board.look_up(&bytes[..2 * few], out)
        },
        "the model refusal ",
    );
    found(
        |board, bytes, out| match pairs_of(bytes).len() {
            PAIRS => Err(Refusal::LookUp),
            _ => board.look_up(bytes, out),
        },
        "answers refusal 18, the model ",
    );
    found(
        |board, bytes, out| match bytes {
            [] | [_] => Err(Refusal::LookUp),
            _ => board.look_up(bytes, out),
        },
        "answers refusal 18, the model 0",
    );
}

/// A slice one short accepted, and filled as far as it goes; and one that is longer refused.
#[test]
fn wrong_slices() {
    found(
        |board, bytes, out| {
            if out.len() + 1 != LINE * pairs_of(bytes).len() {
                return board.look_up(bytes, out);
            }
            let mut longer = [&*out, &[0]].concat();
            let count = board.look_up(bytes, &mut longer)?;
            out.copy_from_slice(&longer[..out.len()]);
            Ok(count)
        },
        ", the model refusal 18",
    );
    found(
        |board, bytes, out| match LINE * pairs_of(bytes).len() {
            exact if out.len() > exact => Err(Refusal::LookUp),
            _ => board.look_up(bytes, out),
        },
        "answers refusal 18, the model ",
    );
}

/// An odd byte taken for a pair with account 0, or refused.
#[test]
fn odd_bytes() {
    found(
        |board, bytes, out| {
            let mut whole = bytes.to_vec();
            whole.resize(bytes.len().next_multiple_of(2), 0);
            board.look_up(&whole, out)
        },
        ", the model ",
    );
    found(
        |board, bytes, out| match bytes.len() % 2 {
            1 => board.look_up(bytes, out).and(Err(Refusal::LookUp)),
            _ => board.look_up(bytes, out),
        },
        "answers refusal 18, the model ",
    );
}

/// Sites and accounts modulo how many there are; in the last pair alone; and sites not looked at behind the 256th pair.
#[test]
fn sites_and_accounts_not_refused() {
    found(
        |board, bytes, out| board.look_up(&changed(bytes, |pair| pair[0] %= board.n), out),
        ", the model refusal 7",
    );
    found(
        |board, bytes, out| board.look_up(&changed(bytes, |pair| pair[1] %= ACCOUNTS as u8), out),
        ", the model refusal 18",
    );
    found(
        |board, bytes, out| {
            let mut bytes = bytes.to_vec();
            if let Some(last) = bytes.as_chunks_mut().0.last_mut() {
                *last = [last[0] % board.n, last[1] % ACCOUNTS as u8];
            }
            board.look_up(&bytes, out)
        },
        ", the model refusal ",
    );
    found(
        |board, bytes, out| {
            let most = bytes.len().min(2 * PAIRS);
            match board.look_up(&bytes[..most], &mut out.to_vec()) {
                Err(refusal) => Err(refusal),
                Ok(_) if bytes.len() > 2 * PAIRS + 1 => Err(Refusal::LookUp),
                Ok(_) => board.look_up(bytes, out),
            }
        },
        "answers refusal 18, the model refusal 7",
    );
}

/// 18 before 7, a site that is down refused with 8, and all refusals of a file answered as if it were malformed.
#[test]
fn wrong_refusals() {
    found(
        |board, bytes, out| {
            let sites_fit = changed(bytes, |pair| pair[0] = 0);
            match board.look_up(&sites_fit, &mut out.to_vec()) {
                Ok(_) => board.look_up(bytes, out),
                refused => refused,
            }
        },
        "answers refusal 18, the model refusal 7",
    );
    found(
        |board, bytes, out| {
            let down = |pair: &Pair| pair[0] < board.n && !board.is_up(pair[0].into());
            match pairs_of(bytes).iter().any(down) {
                true => Err(Refusal::SiteDown),
                false => board.look_up(bytes, out),
            }
        },
        "answers refusal 8, the model ",
    );
    let malformed = |input: &[u8], pairs: &[u8], out: &mut [i64]| match left_by(input) {
        Ok(board) => counted(board.look_up(pairs, out)),
        Err(_) => u64::MAX,
    };
    let programs = Programs {
        run_lookup: malformed,
        ..MODEL
    };
    on_large_stack(|| found_in(&programs, "answers refusal 1, the model refusal "));
}
