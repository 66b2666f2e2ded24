// Holds: random changes that leave a board sound yet often beyond what any run reaches.
// Rests on: board, posting, prng, gen, sound, flight, set.

use crate::board::Board;
use crate::flight::{DELIVER, FIRST};
use crate::gen::HOUSE_NETS;
use crate::posting::{Posting, HOUSE_NET};
use crate::prng::Prng;
use crate::set::{below, one, site as bit, Set, POSTINGS};

/// Does so many changes; one that would make the board unsound is undone.
pub fn scramble(rng: &mut Prng, board: &mut Board, changes: usize) {
    for _ in 0..changes {
        if board.postings.is_empty() {
            return;
        }
        let before = board.clone();
        match rng.below(81) {
            0..20 => change_sets(rng, board),
            20..40 => change_heard(rng, board),
            40..60 => change_flight(rng, board),
            60..80 => change_lists(rng, board),
            _ => add_postings(rng, board),
        }
        if !board.is_sound() {
            *board = before;
        }
    }
}

fn any_posting(rng: &mut Prng, board: &Board) -> usize {
    rng.below(board.postings.len() as u64) as usize
}

fn any_site(rng: &mut Prng, board: &Board) -> usize {
    rng.below(board.n.into()) as usize
}

fn any_set(rng: &mut Prng, board: &Board) -> Set {
    let words = std::array::from_fn(|_| rng.word() & rng.word());
    Set { words } & below(board.postings.len())
}

/// Postings like those offered, so that the other changes reach high numbers without a long run before; one of
/// twenty is a NET of the whole house, whatever was offered.
fn add_postings(rng: &mut Prng, board: &mut Board) {
    let any = rng.within(board.postings.len() as u64, POSTINGS as u64) as usize;
    let wanted = rng.pick(&[any, any, POSTINGS - 1, POSTINGS]);
    while board.postings.len() < wanted {
        let like = if rng.percent(HOUSE_NETS) {
            HOUSE_NET
        } else {
            board.postings[any_posting(rng, board)]
        };
        let owner = any_site(rng, board) as u8;
        board.postings.push(Posting { owner, ..like });
    }
}

fn change_sets(rng: &mut Prng, board: &mut Board) {
    let m = one(any_posting(rng, board));
    let site = any_site(rng, board);
    let site = &mut board.sites[site];
    match rng.below(5) {
        0 => site.seen ^= m,
        1 => site.held ^= m,
        2 => site.stepped ^= m,
        3 => site.finished ^= m,
        _ => site.told ^= m,
    }
}

fn change_heard(rng: &mut Prng, board: &mut Board) {
    let m = any_posting(rng, board);
    let from = bit(any_site(rng, board));
    let set = any_set(rng, board);
    let site = any_site(rng, board);
    let site = &mut board.sites[site];
    match rng.below(5) {
        0 => site.seconds[m].heard ^= from,
        1 => site.seconds[m].good ^= from,
        2 => site.thirds[m].heard ^= from,
        3 => site.thirds[m].with ^= from,
        _ => site.thirds[m].union = set,
    }
}

fn change_flight(rng: &mut Prng, board: &mut Board) {
    let m = any_posting(rng, board);
    let from = any_site(rng, board);
    let to = any_site(rng, board);
    match rng.below(4) {
        0 => board.flight.to[FIRST][m][from] ^= bit(to),
        1 => {
            let good = rng.percent(60);
            board.flight.send_second(m, from, bit(to), good);
        }
        2 => {
            let mut set = any_set(rng, board);
            if rng.percent(50) {
                set |= one(m);
            }
            board.flight.send_third(m, from, board.owner(m), set);
        }
        _ => board.flight.to[DELIVER][m][from] ^= bit(to),
    }
}

fn change_lists(rng: &mut Prng, board: &mut Board) {
    let m = any_posting(rng, board);
    let s = any_site(rng, board);
    match rng.below(6) {
        0 => board.down ^= bit(s),
        1 => board.sites[s].place = rng.below(board.log.len() as u64 + 1) as usize,
        2 => board.sites[s].record.push(m as u8),
        3 => {
            board.sites[s].record.pop();
        }
        4 => {
            let owner = board.owner(m);
            board.sites[owner].finished |= one(m);
            board.entries[m] = any_set(rng, board);
            board.pool |= one(m);
        }
        _ => board.pool &= !one(m),
    }
}
