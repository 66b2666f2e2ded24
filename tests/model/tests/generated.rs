// Holds: what the generators reach: each word of a set, the last posting, offers past it, numbers not offered, NET 255, CALLs by position.
// Rests on: the model.

use model::gen::{legal_start, mix_for, next_call, random_mix, random_run, Mix, LEADS, TASTES};
use model::malform::any_file;
use model::posting::{CALL, POSITION, RATE_OF};
use model::prng::Prng;
use model::scramble::scramble;
use model::set::of;
use model::*;

/// What came up in the runs so far.
#[derive(Default)]
struct Reached {
    offered: usize,
    refused: usize,
    delivered: Set,
    ordered: Set,
    carried: Set,
}

impl Reached {
    fn note(&mut self, run: &Run) {
        let mut board = Board::start(run.n.into(), run.f.into(), run.matrix).0;
        for call in &run.calls {
            let answer = board.apply_on_sound(call);
            self.refused += usize::from(answer == Err(Refusal::BoardFull));
        }
        self.offered = self.offered.max(board.postings.len());
        for site in &board.sites {
            self.delivered |= of(site.record.iter().map(|&m| m.into()));
        }
        for &m in &board.log {
            self.ordered |= of([m.into()]);
            self.carried |= board.entries[usize::from(m)];
        }
    }

    fn check(&self) {
        assert_eq!(self.offered, 256);
        assert!(self.refused > 0);
        for set in [self.delivered, self.ordered, self.carried] {
            assert!(set.words.iter().all(|&word| word != 0), "{set:x?}");
        }
        assert!(self.delivered.words[3] >> 63 == 1, "posting 255");
    }
}

/// The run of a random file, if it has one with an accepted start.
fn any_run(rng: &mut Prng) -> Option<Run> {
    let run = decode(&any_file(rng)).ok()?;
    let answer = Board::start(run.n.into(), run.f.into(), run.matrix).1;
    answer.is_ok().then_some(run)
}

#[test]
fn files_reach_every_word() {
    let mut rng = Prng::new(41);
    let mut reached = Reached::default();
    for _ in 0..2500 {
        let run = any_run(&mut rng);
        run.iter().for_each(|run| reached.note(run));
    }
    reached.check();
}

#[test]
fn a_seed_gives_one_file() {
    for seed in 0..100 {
        let file = any_file(&mut Prng::new(seed));
        assert_eq!(file, any_file(&mut Prng::new(seed)), "{seed}");
    }
}

/// Which misuse of 255, or number close to a mark or an account, an offer shows.
fn misuse(kind: u64, a: u64, b: u64, amount: u64) -> Option<usize> {
    match (kind, a, b) {
        (3, 255, 0..16) => Some(0),
        (3, 0..16, 255) => Some(1),
        (3, 255, 255) if amount != 0 => Some(2),
        (1, 255, 255) => Some(3),
        (2, 255, 255) => Some(4),
        (0, 255, 0..16) => Some(5),
        (0, 0..16, 255) => Some(6),
        (3, 254, 254) => Some(7),
        (3, 16, 16) => Some(8),
        _ => None,
    }
}

/// Offers by what they are: all, NETs of the whole house, such that were accepted, and misuses refused with 9.
#[derive(Default)]
struct Offers {
    all: usize,
    house: usize,
    accepted: usize,
    misused: [usize; 9],
}

impl Offers {
    fn note(&mut self, call: &Call, answer: Result<Answer, Refusal>) {
        let &Call::Offer {
            kind, a, b, amount, ..
        } = call
        else {
            return;
        };
        self.all += 1;
        if (kind, a, b, amount) == (3, 255, 255, 0) {
            assert_ne!(answer, Err(Refusal::BadField));
            self.house += 1;
            self.accepted += usize::from(answer.is_ok());
        }
        if let Some(k) = misuse(kind, a, b, amount) {
            let number = answer.err().map(Refusal::number);
            assert!(matches!(number, Some(7..=9)), "{call:?}");
            self.misused[k] += usize::from(number == Some(9));
        }
    }
}

/// One offer of twenty nets the whole house, less those that are changed at random, and each misuse is rare.
#[test]
fn files_net_the_whole_house() {
    let mut rng = Prng::new(46);
    let mut offers = Offers::default();
    for run in (0..2500).filter_map(|_| any_run(&mut rng)) {
        let mut board = Board::start(run.n.into(), run.f.into(), run.matrix).0;
        for call in &run.calls {
            let answer = board.apply_on_sound(call);
            offers.note(call, answer);
        }
    }
    let Offers {
        all,
        house,
        accepted,
        misused,
    } = offers;
    let in_thousand = 1000 * house / all;
    assert!((40..=55).contains(&in_thousand), "{house} of {all}");
    assert!(accepted * 10 > house * 8, "{accepted} of {house}");
    assert!(misused.iter().all(|&m| m > 20), "{misused:?}");
    assert!(misused.iter().sum::<usize>() * 20 < all, "{misused:?}");
}

/// Wide offers that are the NET of the whole house in their low bits alone are drawn, and refused.
#[test]
fn wide_calls_resemble_the_whole_house() {
    let mut rng = Prng::new(47);
    let board = Board::start(3, 1, FIXED_PAIRS).0;
    let mut drawn = 0;
    for _ in 0..20_000 {
        let mix = Mix {
            odd: 50,
            wide: true,
            ..random_mix(&mut rng)
        };
        let call = next_call(&mut rng, &board, &mix);
        let Call::Offer {
            kind, a, b, amount, ..
        } = call
        else {
            continue;
        };
        let low = (kind as u8, a as u8, b as u8, amount as u32);
        if low == (3, 255, 255, 0) && (kind, a, b, amount) != (3, 255, 255, 0) {
            drawn += 1;
            assert!(board.clone().apply_on_sound(&call).is_err(), "{call:?}");
        }
    }
    assert!(drawn > 50, "{drawn}");
}

#[test]
fn every_lead_reaches_its_word() {
    let mut rng = Prng::new(42);
    for taste in TASTES..TASTES + LEADS {
        let word = (taste - TASTES + 1).min(3) as usize;
        let mut reached = Reached::default();
        for _ in 0..40 {
            let start = legal_start(&mut rng);
            let mix = Mix {
                taste,
                ..random_mix(&mut rng)
            };
            let run = random_run(&mut rng, start, 700, &mix);
            assert!(encode(&run).is_some());
            reached.note(&run);
        }
        for set in [reached.delivered, reached.ordered, reached.carried] {
            assert_ne!(set.words[word], 0, "{taste}");
        }
    }
}

/// The sign of the position at each CALL in a record, by account; only CALLs at a rate above 0, as others add nothing
/// anyway.
fn signs_called(board: &Board, record: &[u8]) -> [Vec<i64>; ACCOUNTS] {
    let mut signs = [const { Vec::new() }; ACCOUNTS];
    let mut figures = [0_i64; FIGURES];
    for &m in record {
        let posting = &board.postings[usize::from(m)];
        let a = usize::from(posting.a);
        if posting.kind == CALL && figures[4 * a + RATE_OF] > 0 {
            signs[a].push(figures[4 * a + POSITION].signum());
        }
        effect(posting, &mut figures);
    }
    signs
}

/// Once a run is drained, its books rest on CALLs of buyers, of sellers, of neither, and of accounts that were both.
#[test]
fn drained_runs_call_on_both_sides_of_zero() {
    let mut rng = Prng::new(48);
    let (mut times, mut both) = ([0; 3], 0);
    for _ in 0..100 {
        let (n, f, matrix) = legal_start(&mut rng);
        let mix = mix_for(&mut rng, 400);
        let run = random_run(&mut rng, (n, f, matrix), 400, &mix);
        let mut board = Board::start(n.into(), f.into(), matrix).0;
        for call in &run.calls {
            let _ = board.apply_on_sound(call);
        }
        board.drain(27_136).unwrap();
        for signs in signs_called(&board, &board.sites[0].record) {
            both += usize::from(signs.contains(&-1) && signs.contains(&1));
            signs
                .iter()
                .for_each(|sign| times[(sign + 1) as usize] += 1);
        }
    }
    assert!(times.iter().all(|&count| count > 50), "{times:?}");
    assert!(both > 20, "{both}");
}

/// Calls that are not wide fit a file even on a full board, where no byte is a number not offered; wide ones then
/// name numbers from 256 on.
#[test]
fn calls_on_a_full_board() {
    let mut rng = Prng::new(43);
    let mut full = Board::start(3, 1, FIXED_PAIRS).0;
    for m in 0..256 {
        full.offer(m % 3, 0, 1, 2, 9, None).unwrap();
    }
    let mut beyond = [0; 2];
    for round in 0..20_000 {
        let mut mix = random_mix(&mut rng);
        mix.odd = 50;
        mix.wide = round % 2 == 0;
        let call = next_call(&mut rng, &full, &mix);
        let run = Run {
            n: 3,
            f: 1,
            matrix: FIXED_PAIRS,
            calls: vec![call],
        };
        assert!(mix.wide || encode(&run).is_some(), "{call:?}");
        if let Call::Order { posting } | Call::Receive { posting, .. } = call {
            beyond[0] += usize::from(posting == 256);
            beyond[1] += usize::from(posting > 256);
        }
    }
    assert!(beyond.iter().all(|&count| count > 50), "{beyond:?}");
}

/// As long as a byte has a number not offered, such a number is drawn.
#[test]
fn calls_name_postings_not_offered() {
    let mut rng = Prng::new(44);
    let mut board = Board::start(3, 1, FIXED_PAIRS).0;
    for offered in 0..256 {
        let mut drawn = 0;
        for _ in 0..400 {
            let mut mix = random_mix(&mut rng);
            mix.odd = 50;
            let call = next_call(&mut rng, &board, &mix);
            if let Call::Order { posting } | Call::Receive { posting, .. } = call {
                drawn += usize::from(posting >= offered);
            }
        }
        assert!(drawn > 0, "{offered}");
        board.offer(offered % 3, 0, 1, 2, 9, None).unwrap();
    }
}

#[test]
fn scrambles_reach_every_word() {
    let mut rng = Prng::new(45);
    let (mut pooled, mut recorded, mut full, mut housed) = (Set::EMPTY, Set::EMPTY, 0, 0);
    for _ in 0..150 {
        let (n, f, matrix) = legal_start(&mut rng);
        let mut board = Board::start(n.into(), f.into(), matrix).0;
        let mix = mix_for(&mut rng, 40);
        for _ in 0..40 {
            let call = next_call(&mut rng, &board, &mix);
            let _ = board.apply_on_sound(&call);
        }
        let offered = board.postings.len();
        scramble(&mut rng, &mut board, 60);
        assert!(board.is_sound());
        let (old, new) = board.postings.split_at(offered);
        housed += usize::from(!old.iter().any(nets_house) && new.iter().any(nets_house));
        pooled |= board.pool;
        for site in &board.sites {
            recorded |= of(site.record.iter().map(|&m| m.into()));
        }
        full += usize::from(board.postings.len() == 256);
    }
    for set in [pooled, recorded] {
        assert!(set.words.iter().all(|&word| word != 0), "{set:x?}");
    }
    assert!(full > 10 && housed > 10, "{full} {housed}");
}
