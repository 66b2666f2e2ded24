// Holds: what is asked of call_changed about the board of a file: a change, a call, a limit and room.
// Rests on: called, ground, changes, aimed, programs; the model's generators and rows.

use crate::called::{BOOKS, DRAIN};
use crate::ground::Ground;
use crate::programs::FILLED;
use model::gen::{next_call, Mix, TASTES};
use model::numbers::{fitted, replaced, NUMBERS};
use model::prng::Prng;
use model::row::read_sound;
use model::runfile::{encode_event, EVENT, UNCUT};
use model::{Board, Call, FIGURES, SITES};
use text::statement::DRAIN as DRAIN_LIMIT;

#[derive(Clone, Debug, PartialEq, Eq)]
pub struct Question {
    pub place: u64,
    pub value: u64,
    pub event: Vec<u8>,
    pub limit: u64,
    /// The lengths of the lent slices.
    pub figures: usize,
    pub board: usize,
}

/// A question about a board whose row is given.
pub fn question(rng: &mut Prng, before: &Board, row: &[u64]) -> Question {
    let (place, value, call) = change(rng, before, row);
    let changed = read_sound(&replaced(row, place, value));
    let board = changed.as_ref().unwrap_or(before);
    let event = match call {
        Some(call) if rng.percent(85) => encode_event(&call).expect("all arguments are small"),
        _ => any_event(rng, board),
    };
    Question {
        place,
        value,
        event: event.to_vec(),
        limit: any_limit(rng),
        figures: any_room(rng, board.n),
        board: FILLED + rng.pick(&[0, 0, 1, 40]),
    }
}

/// A place and a value, and for some a call that looks there. A change that changes nothing is mostly drawn anew.
pub(crate) fn change(rng: &mut Prng, board: &Board, row: &[u64]) -> (u64, u64, Option<Call>) {
    loop {
        let mut ground = Ground { rng, board, row };
        let aimed = ground.rng.percent(35).then(|| ground.aimed()).flatten();
        let ((place, value), call) = match aimed {
            Some((change, call)) => (change, Some(call)),
            None => (ground.change(), None),
        };
        let real = fitted(place, value) != row[place];
        if real || rng.percent(10) {
            return (place_or_past(rng, place as u64), value, call);
        }
    }
}

/// The place, or now and then one past the last that looks like it in its low bits.
fn place_or_past(rng: &mut Prng, place: u64) -> u64 {
    if !rng.percent(3) {
        return place;
    }
    past(rng, place)
}

fn past(rng: &mut Prng, place: u64) -> u64 {
    let last = NUMBERS as u64;
    let alike = [
        last + place,
        place | 1 << 16,
        place | 1 << 32,
        place | 1 << 63,
    ];
    let alike = rng.pick(&alike);
    rng.pick(&[last, last + 1, last + 2, u64::MAX, alike, alike])
}

fn any_limit(rng: &mut Prng) -> u64 {
    let few = rng.below(30);
    let word = rng.word();
    rng.pick(&[0, 1, 2, few, few, DRAIN_LIMIT, u64::MAX, word])
}

/// Room for the books of n sites, or not quite, or for one site more than there can be.
fn any_room(rng: &mut Prng, n: u8) -> usize {
    let whole = FIGURES * usize::from(n).min(SITES);
    let less = rng.below(whole as u64) as usize;
    let more = FIGURES * (SITES + 1);
    rng.pick(&[whole, whole, whole + 3, more, whole - 1, less])
}

/// A drain, the books, or a call, most often one that leans towards what the board accepts.
fn any_event(rng: &mut Prng, board: &Board) -> [u8; EVENT] {
    let code = match rng.below(100) {
        0..=14 => DRAIN,
        15..=26 => BOOKS,
        27..=59 => return plain_event(rng, board),
        _ => return likely_event(rng, board),
    };
    let mut event = [0; EVENT];
    event.fill_with(|| rng.word() as u8);
    event[0] = code;
    event
}

fn likely_event(rng: &mut Prng, board: &Board) -> [u8; EVENT] {
    let mix = Mix {
        accounts: rng.pick(&[2, 3, 16]),
        offers: rng.pick(&[10, 40]),
        crashes: 5,
        cuts: rng.pick(&[10, 40]),
        odd: rng.pick(&[0, 20, 60]),
        wide: false,
        taste: rng.below(TASTES),
    };
    encode_event(&next_call(rng, board, &mix)).expect("a mix that is not wide fits an event")
}

/// A NET, a read, a crash or an order; the site may be down, or none, and the call cut or not.
fn plain_event(rng: &mut Prng, board: &Board) -> [u8; EVENT] {
    let mut sites = vec![rng.below(u64::from(board.n) + 1) as usize];
    sites.extend((0..usize::from(board.n)).find(|&s| !board.is_up(s)));
    sites.extend((0..usize::from(board.n)).find(|&s| board.sites[s].place < board.log.len()));
    let site = rng.pick(&sites) as u8;
    let most = board.n;
    let cut = rng.pick(&[UNCUT, UNCUT, UNCUT, 0, 1, most, most + 1]);
    let account = rng.below(16) as u8;
    let posting = rng.below(board.postings.len() as u64 + 1) as u8;
    let offer = [1, site, 3, account, account, 0, 0, 0, 0, cut];
    let read = [4, site, 0, 0, 0, 0, 0, 0, 0, cut];
    let crash = [5, site, 0, 0, 0, 0, 0, 0, 0, UNCUT];
    let order = [3, posting, 0, 0, 0, 0, 0, 0, 0, UNCUT];
    rng.pick(&[offer, offer, read, read, crash, order])
}

/// A question that changes nothing and is refused, which hands back the board as the file leaves it.
pub fn as_left(rng: &mut Prng) -> Question {
    let crash = [5, 200, 0, 0, 0, 0, 0, 0, 0, UNCUT];
    let read = [4, 200, 0, 0, 0, 0, 0, 0, 0, UNCUT];
    let offer = [1, 200, 3, 1, 1, 0, 0, 0, 0, UNCUT];
    let place = rng.below(NUMBERS as u64);
    Question {
        place: past(rng, place),
        value: rng.word(),
        event: rng.pick(&[crash, read, offer]).to_vec(),
        limit: any_limit(rng),
        figures: rng.below(4) as usize,
        board: FILLED + rng.below(3) as usize,
    }
}
