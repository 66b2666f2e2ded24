// Holds: members' questions about one account: two sites that hold the same postings touching it must show the same four numbers.
// Rests on: files, programs, stack; the model's boards, for what records hold and what a posting touches.

use crate::files::{beginning, numbers, Sort};
use crate::programs::{left_by, Drains, NONE};
use crate::stack::on_large_stack;
use model::prng::Prng;
use model::{touches, Board, ACCOUNTS, FIGURES, SITES};
use std::ops::AddAssign;

/// How many numbers an account has.
const OWN: usize = FIGURES / ACCOUNTS;

/// A question is an account and two sites that hold the same postings touching it, at least one of them.
#[derive(Clone, Copy, Debug, Default, PartialEq, Eq)]
pub struct Asked {
    /// Boards with a question.
    pub boards: u64,
    /// Those of them with messages in flight to sites that are up.
    pub in_flight: u64,
    /// Pairs of sites with a question.
    pub pairs: u64,
    /// Those of them whose records are not the same list.
    pub different: u64,
    /// Those of them of which one holds a posting that the other lacks.
    pub apart: u64,
    /// Those of them of which one at least is down.
    pub down: u64,
    pub questions: u64,
    /// Those of them where the postings touching the account stand in different orders.
    pub reordered: u64,
    /// Accounts of two sites that do not hold the same postings touching it, and show other numbers.
    pub other_numbers: u64,
}

impl AddAssign for Asked {
    fn add_assign(&mut self, other: Asked) {
        self.boards += other.boards;
        self.in_flight += other.in_flight;
        self.pairs += other.pairs;
        self.different += other.different;
        self.apart += other.apart;
        self.down += other.down;
        self.questions += other.questions;
        self.reordered += other.reordered;
        self.other_numbers += other.other_numbers;
    }
}

/// Of one site and one account: the postings of the record that touch it, and its numbers in the books.
struct Seen {
    held: Vec<u8>,
    shown: [i64; OWN],
}

fn seen(board: &Board, figures: &[i64], site: usize, account: usize) -> Seen {
    let held = |m: &&u8| touches(&board.postings[usize::from(**m)], account as u8);
    let from = FIGURES * site + OWN * account;
    Seen {
        held: board.sites[site]
            .record
            .iter()
            .filter(held)
            .copied()
            .collect(),
        shown: figures[from..from + OWN].try_into().expect("four numbers"),
    }
}

fn sorted(list: &[u8]) -> Vec<u8> {
    let mut list = list.to_vec();
    list.sort_unstable();
    list
}

/// Asks two sites about one account, if they hold the same. The error says what they hold and show.
fn ask_account(p: &Seen, q: &Seen) -> Result<Asked, String> {
    let mut asked = Asked::default();
    if sorted(&p.held) != sorted(&q.held) {
        asked.other_numbers = u64::from(p.shown != q.shown);
    } else if p.shown != q.shown {
        let (first, second) = (&p.held, &q.held);
        let held = format!("the sites hold {first:?} and {second:?}");
        return Err(format!("{held}, and show {:?} and {:?}", p.shown, q.shown));
    } else if !p.held.is_empty() {
        asked.questions = 1;
        asked.reordered = u64::from(p.held != q.held);
    }
    Ok(asked)
}

/// Asks two sites, with what each has of every account.
fn ask_two(board: &Board, [p, q]: [usize; 2], all: &[Vec<Seen>]) -> Result<Asked, String> {
    let mut asked = Asked::default();
    for (account, (one, two)) in all[p].iter().zip(&all[q]).enumerate() {
        let name = |cause| format!("sites {p} and {q}, account {account}: {cause}");
        asked += ask_account(one, two).map_err(name)?;
    }
    if asked.questions > 0 {
        let [one, two] = [p, q].map(|site| &board.sites[site].record);
        asked.pairs = 1;
        asked.different = u64::from(one != two);
        asked.apart = u64::from(sorted(one) != sorted(two));
        asked.down = u64::from(!board.is_up(p) || !board.is_up(q));
    }
    Ok(asked)
}

/// Asks every two sites of a board about every account; `figures` has the books of all its sites.
pub fn ask_board(board: &Board, figures: &[i64]) -> Result<Asked, String> {
    let n = usize::from(board.n);
    let of = |site| (0..ACCOUNTS).map(move |account| seen(board, figures, site, account));
    let all: Vec<Vec<Seen>> = (0..n).map(|site| of(site).collect()).collect();
    let mut asked = Asked::default();
    for q in 0..n {
        for p in 0..q {
            asked += ask_two(board, [p, q], &all)?;
        }
    }
    let under_way = !board.flight.messages(board.up()).is_empty();
    asked.boards = u64::from(asked.pairs > 0);
    asked.in_flight = u64::from(asked.pairs > 0 && under_way);
    Ok(asked)
}

/// Asks on the board that a run file and a drain with a limit leave; nothing if the file is refused.
pub fn ask(drains: Drains, input: &[u8], limit: u64) -> Result<Asked, String> {
    let Ok(mut board) = left_by(input) else {
        return Ok(Asked::default());
    };
    let drained = board.drain(limit);
    drained.expect("a board that was played is sound");
    let mut figures = [0; FIGURES * SITES];
    match drains(input, limit, &mut figures) {
        NONE => Err("the file is refused".to_string()),
        _ => ask_board(&board, &figures),
    }
}

/// Runs of a file with limits for the drain after them: the whole file without a drain and with a short one, and two
/// beginnings of it.
fn runs<'a>(rng: &mut Prng, file: &'a [u8]) -> [(&'a [u8], u64); 4] {
    let beginnings = [(beginning(rng, file), 0), (beginning(rng, file), 0)];
    [
        (file, 0),
        (file, rng.within(1, 40)),
        beginnings[0],
        beginnings[1],
    ]
}

/// Asks on the boards that all files of one sort leave, and that parts of them do. The error names the file too, so that
/// it can be made anew.
pub fn ask_sort(drains: Drains, seed: u64, sort: &Sort) -> Result<Asked, String> {
    on_large_stack(|| ask_files(drains, seed, sort))
}

fn ask_files(drains: Drains, seed: u64, sort: &Sort) -> Result<Asked, String> {
    let mut total = Asked::default();
    for k in 0..sort.count {
        let mut rng = numbers(seed, sort, k);
        let file = sort.file(&mut rng, k);
        for (input, limit) in runs(&mut rng, &file) {
            total += ask(drains, input, limit).map_err(|cause| {
                let (name, length) = (sort.name, input.len());
                let part = format!("its first {length} bytes, drained by {limit}");
                format!("{name}, file {k} of seed {seed}, {part}: {cause}")
            })?;
        }
    }
    Ok(total)
}
