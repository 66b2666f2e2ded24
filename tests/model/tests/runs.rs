// Holds: random runs with what must hold of them: soundness, ceilings, one order, quiet ends.
// Rests on: the model, common.

mod common;

use common::tally::{check_agreement, check_quiet, common_order, play};
use common::{choices, complete, DRAIN};
use model::gen::{legal_start, mix_for, next_call, random_mix, Mix, TASTES};
use model::prng::Prng;
use model::scramble::scramble;
use model::set::of;
use model::*;

#[test]
fn random_runs() {
    let mut rng = Prng::new(1);
    let (mut accepted, mut done, mut pooled, mut downs) = (0, 0, 0, 0);
    let (mut delivered, mut ordered) = (Set::EMPTY, Set::EMPTY);
    for round in 0..200 {
        let events = if round % 100 == 0 {
            4096
        } else {
            rng.below(500) as usize
        };
        let mix = mix_for(&mut rng, events);
        let (mut board, taken) = play(&mut rng, &mix, events);
        delivered |= of(common_order(&board).into_iter().map(usize::from));
        ordered |= of(board.log.iter().map(|&m| m.into()));
        accepted += taken;
        done += events;
        check_agreement(&board);
        if board.is_quiet() {
            check_quiet(&board);
        }
        let mut other = board.clone();
        let (count, ending) = board.drain(DRAIN).unwrap();
        assert!(ending == Ending::Quiet && count <= DRAIN);
        check_quiet(&board);
        check_agreement(&board);
        complete(&mut other, &mut rng, |_, _| true);
        check_quiet(&other);
        check_agreement(&other);
        pooled += board.log.len();
        downs += board.down.count_ones();
    }
    assert!(accepted * 2 > done, "{accepted} of {done} accepted");
    assert!(
        pooled > 500 && downs > 100,
        "{pooled} in logs, {downs} down"
    );
    let everywhere = |set: Set| set.words.iter().all(|&word| word != 0);
    assert!(everywhere(delivered), "{delivered:x?}");
    assert!(everywhere(ordered), "{ordered:x?}");
}

/// Without conflicts the log is never used, whatever is cut.
#[test]
fn runs_without_conflict() {
    let mut rng = Prng::new(2);
    for _ in 0..100 {
        let (n, f, _) = legal_start(&mut rng);
        let mut board = Board::start(n.into(), f.into(), FIXED_PAIRS).0;
        let mix = Mix {
            offers: 0,
            cuts: 2,
            crashes: 1,
            odd: 0,
            taste: rng.below(TASTES),
            ..random_mix(&mut rng)
        };
        for m in 0..16 {
            let _ = board.offer(m % u64::from(n), 0, m, (m + 1) % 16, 100 + m, None);
        }
        for _ in 0..1500 {
            let call = next_call(&mut rng, &board, &mix);
            if !matches!(call, Call::Offer { .. }) {
                let _ = board.apply(&call);
            }
            assert!(board.pool.is_empty() && board.log.is_empty());
        }
        board.drain(DRAIN).unwrap();
        check_quiet(&board);
    }
}

#[test]
fn drain_takes_the_lowest_and_splits_anywhere() {
    let mut rng = Prng::new(3);
    for _ in 0..60 {
        let mix = random_mix(&mut rng);
        let events = rng.below(200) as usize;
        let (board, _) = play(&mut rng, &mix, events);
        let mut whole = board.clone();
        let (count, ending) = whole.drain(DRAIN).unwrap();
        assert_eq!(ending, Ending::Quiet);
        let limit = rng.below(count + 1);
        let mut parts = board.clone();
        let first = if limit == count {
            Ending::Quiet
        } else {
            Ending::Spent
        };
        assert_eq!(parts.drain(limit), Ok((limit, first)));
        assert_eq!(parts.drain(u64::MAX), Ok((count - limit, Ending::Quiet)));
        assert_eq!(parts, whole);
        let mut steps = board;
        for _ in 0..count {
            let all = choices(&steps, |_, _| true);
            steps.apply(&all[0]).unwrap();
        }
        assert_eq!(steps, whole);
    }
}

/// On a quiet board, every receive, order and read is refused.
#[test]
fn quiet_leaves_nothing_to_do() {
    let mut rng = Prng::new(4);
    for _ in 0..10 {
        let mix = random_mix(&mut rng);
        let (mut board, _) = play(&mut rng, &mix, 150);
        board.drain(DRAIN).unwrap();
        let before = board.clone();
        for k in 0..5 * 257 * 8 * 8 {
            let (form, posting, from, to) = (k / (257 * 64), k / 64 % 257, k / 8 % 8, k % 8);
            assert!(board
                .receive_on_sound(form, posting, from, to, None)
                .is_err());
        }
        assert!((0..260).all(|m| board.order(m).is_err()));
        assert!((0..9).all(|s| board.read(s, None).is_err()));
        assert_eq!(board, before);
    }
}

/// Soundness is kept even from boards that no run reaches, and a drain ends on each.
#[test]
fn scrambled_boards_stay_sound() {
    let mut rng = Prng::new(6);
    for _ in 0..150 {
        let mut mix = random_mix(&mut rng);
        mix.wide = true;
        let (mut board, _) = play(&mut rng, &mix, 120);
        scramble(&mut rng, &mut board, 60);
        assert!(board.is_sound());
        for _ in 0..150 {
            let call = next_call(&mut rng, &board, &mix);
            let before = board.clone();
            match board.apply(&call) {
                Ok(_) => assert!(board.is_sound(), "{call:?}"),
                Err(_) => assert_eq!(board, before),
            }
        }
        assert_eq!(board.drain(u64::MAX).unwrap().1, Ending::Quiet);
        assert!(board.is_sound() && board.is_quiet());
    }
}
