// Holds: each cause of refusal 6 alone, the order in which causes are named, and that any board may be asked.
// Rests on: the model, common.

mod common;

use common::{rich, start};
use model::set::one;
use model::*;

type Change = (Cause, fn(&mut Board));

/// Changes to a board with postings 0 delivered, 1 in the log and 2 in the pool.
const ALONE: [Change; 20] = [
    (Cause::Start, |b| b.f = 2),
    (Cause::Start, |b| b.matrix |= 2),
    (Cause::Owner, |b| b.postings[0].owner = 3),
    (Cause::Fields, |b| b.postings[0].kind = 4),
    (Cause::ThirdElsewhere, |b| b.flight.to[THIRD][0][1] = 2),
    (Cause::TooMany, |b| {
        let p = b.postings[0];
        b.postings.resize(257, p);
    }),
    (Cause::NotOffered, |b| b.sites[0].seen |= one(3)),
    (Cause::NotOffered, |b| b.sites[0].told |= one(64)),
    (Cause::NotOffered, |b| b.entries[2] |= one(128)),
    (Cause::NotOffered, |b| b.flight.carried[1][0] |= one(255)),
    (Cause::NotOffered, |b| b.sites[1].record.push(3)),
    (Cause::NotOffered, |b| b.flight.to[THIRD][3][1] = 1),
    (Cause::NotOffered, |b| b.log.push(255)),
    (Cause::NoSuchSite, |b| b.down |= 0x80),
    (Cause::NoSuchSite, |b| b.flight.to[SECOND][0][6] = 1),
    (Cause::Twice, |b| b.log.push(1)),
    (Cause::Twice, |b| b.sites[1].record.push(0)),
    (Cause::PastLog, |b| b.sites[0].place = 2),
    (Cause::NotFinished, |b| b.sites[1].finished &= !one(2)),
    (Cause::PoolAndLog, |b| b.pool |= one(1)),
];

#[test]
fn each_cause_alone() {
    for (k, (wanted, change)) in ALONE.iter().enumerate() {
        let mut board = rich();
        change(&mut board);
        let apply: Vec<Cause> = CAUSES.into_iter().filter(|&c| board.has_cause(c)).collect();
        assert_eq!(apply, [*wanted], "change {k}");
        assert_eq!(board.cause(), Some(*wanted));
    }
    for cause in CAUSES {
        assert!(ALONE.iter().any(|(shown, _)| *shown == cause), "{cause:?}");
    }
}

#[test]
fn the_first_of_the_list_is_named() {
    for (x, (first, change)) in ALONE.iter().enumerate() {
        for (second, other) in &ALONE[x..] {
            let mut board = rich();
            change(&mut board);
            other(&mut board);
            assert_eq!(board.cause(), Some(*first.min(second)));
        }
    }
    assert!(CAUSES.is_sorted());
}

#[test]
fn sound_boards_have_no_cause() {
    for board in [rich(), start(3, 0), start(7, 3)] {
        assert!(CAUSES.into_iter().all(|cause| !board.has_cause(cause)));
        assert_eq!(board.cause(), None);
    }
    assert_eq!(Board::blank().cause(), Some(Cause::Start));
}

/// The questions are asked one by one, so none may rest on another's answer.
#[test]
fn any_board_may_be_asked() {
    let mut board = rich();
    board.n = 255;
    board.f = 255;
    board.down = 255;
    for p in &mut board.postings {
        p.owner = 255;
        p.kind = 4;
    }
    let p = board.postings[0];
    board.postings.resize(300, p);
    board.flight.to = [[[255; SITES]; POSTINGS]; FORMS];
    board.log = (0..=255).collect();
    board.pool = Set::ALL;
    for site in &mut board.sites {
        site.record = vec![255; 300];
        site.place = usize::MAX;
    }
    for cause in CAUSES {
        let other = matches!(cause, Cause::NotOffered | Cause::NoSuchSite);
        assert!(board.has_cause(cause) || other, "{cause:?}");
    }
}
