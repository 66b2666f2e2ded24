// Holds: what a run has done, told from its calls alone, and what must hold of the board it ends on.
// Rests on: the model, common.

use super::choices;
use model::gen::{legal_start, next_call, Mix};
use model::prng::Prng;
use model::set::{has, of};
use model::*;

/// What a run has done so far, told from its calls alone.
pub struct Tally {
    offered: Vec<Posting>,
    down: u8,
    touched: [u64; POSTINGS],
    ordered: Vec<u64>,
    reads: [usize; SITES],
}

impl Tally {
    pub fn new() -> Tally {
        Tally {
            offered: Vec::new(),
            down: 0,
            touched: [0; POSTINGS],
            ordered: Vec::new(),
            reads: [0; SITES],
        }
    }

    /// Takes note of an accepted call.
    pub fn note(&mut self, call: &Call) {
        match *call {
            Call::Offer {
                site,
                kind,
                a,
                b,
                amount,
                ..
            } => self.offered.push(Posting {
                owner: site as u8,
                kind: kind as u8,
                a: a as u8,
                b: b as u8,
                amount: amount as u32,
            }),
            Call::Receive { posting, .. } => self.touched[posting as usize] += 1,
            Call::Order { posting } => {
                self.touched[posting as usize] += 1;
                self.ordered.push(posting);
            }
            Call::Read { site, .. } => {
                let entry = self.ordered[self.reads[site as usize]];
                self.touched[entry as usize] += 1;
                self.reads[site as usize] += 1;
            }
            Call::Crash { .. } => {}
        }
        self.note_down(call);
    }

    fn note_down(&mut self, call: &Call) {
        let (site, cut) = match *call {
            Call::Offer { site, cut, .. } | Call::Read { site, cut } => (site, cut),
            Call::Receive { to, cut, .. } => (to, cut),
            Call::Crash { site } => (site, Some(0)),
            Call::Order { .. } => return,
        };
        if cut.is_some() {
            self.down |= 1 << site;
        }
    }

    pub fn check(&self, board: &Board) {
        let n = u64::from(board.n);
        let ceiling = 2 * n * n + n + 1;
        assert!(self.touched.iter().all(|&t| t <= ceiling));
        assert_eq!(self.offered, board.postings);
        assert_eq!(self.down, board.down);
        let log: Vec<u64> = board.log.iter().map(|&m| m.into()).collect();
        assert_eq!(self.ordered, log);
        assert!(board.sites.iter().map(|s| s.place).eq(self.reads));
        let used = !self.ordered.is_empty() || !board.pool.is_empty();
        let p = &self.offered;
        let clash = (0..p.len()).any(|x| (0..x).any(|y| conflict(board.matrix, &p[x], &p[y])));
        assert!(clash || !used, "the log was used without a conflict");
    }
}

/// Where each posting stands in a record.
fn places_in(record: &[u8]) -> [Option<usize>; POSTINGS] {
    std::array::from_fn(|m| record.iter().position(|&k| usize::from(k) == m))
}

/// An order of all delivered postings that each record keeps for its conflicting pairs.
pub fn common_order(board: &Board) -> Vec<u8> {
    let n = usize::from(board.n);
    let records: Vec<&[u8]> = board.sites[..n]
        .iter()
        .map(|s| s.record.as_slice())
        .collect();
    let mut left: Vec<u8> = (0..POSTINGS)
        .map(|m| m as u8)
        .filter(|m| records.iter().any(|r| r.contains(m)))
        .collect();
    let clash = |x: u8, y: u8| {
        let p = &board.postings;
        x != y && conflict(board.matrix, &p[x as usize], &p[y as usize])
    };
    let places: Vec<[Option<usize>; POSTINGS]> = records.iter().map(|r| places_in(r)).collect();
    let before = |x: u8, y: u8, place: &[Option<usize>; POSTINGS]| {
        let pair = (place[usize::from(x)], place[usize::from(y)]);
        matches!(pair, (Some(a), Some(b)) if a < b)
    };
    let mut order = Vec::new();
    while !left.is_empty() {
        let free = left.iter().position(|&m| {
            !left
                .iter()
                .any(|&x| clash(x, m) && places.iter().any(|p| before(x, m, p)))
        });
        order.push(left.remove(free.expect("the records share no order")));
    }
    order
}

/// Each site's books are those of its share of the order.
pub fn check_agreement(board: &Board) {
    let order = common_order(board);
    let n = usize::from(board.n);
    let mut all = vec![1; FIGURES * n];
    board.books_of_all(&mut all).unwrap();
    for s in 0..n {
        let mut figures = [0; FIGURES];
        for m in order.iter().filter(|m| board.sites[s].record.contains(m)) {
            effect(&board.postings[usize::from(*m)], &mut figures);
        }
        assert_eq!(all[FIGURES * s..FIGURES * (s + 1)], figures);
        let sum: i64 = figures.as_chunks::<4>().0.iter().map(|k| k[0] + k[3]).sum();
        assert_eq!(sum, 0);
    }
}

pub fn check_quiet(board: &Board) {
    assert!(board.is_quiet());
    assert!(choices(board, |_, _| true).is_empty());
    let n = usize::from(board.n);
    let set = |s: usize| of(board.sites[s].record.iter().map(|&m| m.into()));
    let anywhere = (0..n).fold(Set::EMPTY, |x, s| x | set(s));
    let mut books = Vec::new();
    for s in (0..n).filter(|&s| board.is_up(s)) {
        assert_eq!(set(s), anywhere);
        let mut lent = [0; FIGURES];
        board.books(s as u64, &mut lent).unwrap();
        books.push(lent);
    }
    assert!(books.windows(2).all(|w| w[0] == w[1]));
    for (m, posting) in board.postings.iter().enumerate() {
        let up = board.is_up(posting.owner.into());
        assert!(
            !up || has(anywhere, m),
            "an owner that is up got its posting through"
        );
    }
}

pub fn play(rng: &mut Prng, mix: &Mix, events: usize) -> (Board, usize) {
    let (n, f, matrix) = legal_start(rng);
    let mut board = Board::start(n.into(), f.into(), matrix).0;
    let mut tally = Tally::new();
    let mut accepted = 0;
    for _ in 0..events {
        let call = next_call(rng, &board, mix);
        let before = mix.odd.ne(&0).then(|| board.clone());
        match board.apply(&call) {
            Ok(answer) => {
                accepted += 1;
                tally.note(&call);
                if let Answer::Offered(m) = answer {
                    assert_eq!(usize::from(m) + 1, board.postings.len());
                }
            }
            Err(_) => assert!(before.is_none_or(|b| b == board)),
        }
        assert!(board.is_sound());
    }
    tally.check(&board);
    let mut rest = board.clone();
    while let Some(call) = rest.next_event() {
        rest.apply(&call).unwrap();
        tally.note(&call);
    }
    tally.check(&rest);
    (board, accepted)
}
