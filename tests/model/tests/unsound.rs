// Holds: boards with one cause of refusal 6 each, and odd boards that are sound all the same.
// Rests on: the model, common.

mod common;

use common::{no, rich, DRAIN, MISUSES};
use model::set::one;
use model::*;

fn refuses_all(name: &str, mut board: Board) {
    let before = board.clone();
    let mut lent = [7; 500];
    assert!(!board.is_sound(), "{name}");
    assert_eq!(no(board.offer(0, 0, 1, 2, 9, None)), 6, "{name}");
    assert_eq!(no(board.offer(9, 9, 99, 2, 9, Some(9))), 6, "{name}");
    assert_eq!(no(board.receive(2, 1, 0, 0, None)), 6, "{name}");
    assert_eq!(no(board.receive(9, 99, 9, 9, Some(9))), 6, "{name}");
    assert_eq!(no(board.order(2)), 6, "{name}");
    assert_eq!(no(board.read(1, None)), 6, "{name}");
    assert_eq!(no(board.crash(0)), 6, "{name}");
    assert_eq!(no(board.drain(9)), 6, "{name}");
    assert_eq!(no(board.apply(&Call::Crash { site: 9 })), 6, "{name}");
    assert_eq!(no(board.books(0, &mut lent)), 6, "{name}");
    assert_eq!(no(board.books(9, &mut lent[..3])), 6, "{name}");
    assert_eq!(no(board.books_of_all(&mut lent)), 6, "{name}");
    assert_eq!(no(board.books_of_all(&mut [])), 6, "{name}");
    assert_eq!(no(board.look_up(&[0, 1, 2, 15], &mut lent)), 6, "{name}");
    assert_eq!(no(board.look_up(&[9, 99], &mut [])), 6, "{name}");
    assert_eq!(no(board.look_up(&[], &mut [])), 6, "{name}");
    board.is_quiet();
    assert_eq!(board, before, "{name}");
    assert_eq!(lent, [7; 500], "{name}");
}

type Change = (&'static str, fn(&mut Board));

#[test]
fn the_blank_board() {
    refuses_all("blank", Board::blank());
    refuses_all("refused start", Board::start(3, 1, 0).0);
}

const NUMBERS: [Change; 15] = [
    ("n 2", |b| b.n = 2),
    ("n 8", |b| b.n = 8),
    ("n 255", |b| b.n = 255),
    ("f 2", |b| b.f = 2),
    ("f 255", |b| b.f = 255),
    ("not symmetric", |b| b.matrix |= 2),
    ("no fixed pair", |b| b.matrix = 0x5B4C),
    ("owner", |b| b.postings[0].owner = 3),
    ("kind", |b| b.postings[0].kind = 4),
    ("account a", |b| b.postings[0].a = 16),
    ("account b", |b| b.postings[1].b = 5),
    ("same accounts", |b| b.postings[0].b = 1),
    ("amount", |b| b.postings[0].amount = 1_000_000_001),
    ("rate", |b| b.postings[1].amount = 10_001),
    ("257 postings", |b| {
        let p = b.postings[0];
        b.postings.resize(257, p);
    }),
];

const SETS: [Change; 24] = [
    ("down", |b| b.down |= 0b1000),
    ("down, bit 7", |b| b.down |= 0x80),
    ("seen", |b| b.sites[0].seen |= one(3)),
    ("held", |b| b.sites[1].held |= one(3)),
    ("stepped", |b| b.sites[2].stepped |= one(63)),
    ("seen, word 1", |b| b.sites[2].seen |= one(64)),
    ("held, word 2", |b| b.sites[2].held |= one(128)),
    ("stepped, word 3", |b| b.sites[2].stepped |= one(192)),
    ("told, last", |b| b.sites[2].told |= one(255)),
    ("finished", |b| b.sites[0].finished |= one(3)),
    ("told", |b| b.sites[0].told |= one(3)),
    ("seconds heard", |b| b.sites[0].seconds[0].heard |= 8),
    ("seconds good", |b| b.sites[0].seconds[0].good |= 8),
    ("seconds of 3", |b| b.sites[0].seconds[3].heard = 1),
    ("goods of 63", |b| b.sites[2].seconds[63].good = 1),
    ("goods of 255", |b| b.sites[2].seconds[255].good = 1),
    ("thirds heard", |b| b.sites[0].thirds[0].heard |= 8),
    ("thirds with", |b| b.sites[0].thirds[0].with |= 8),
    ("thirds union", |b| b.sites[0].thirds[0].union |= one(3)),
    ("thirds of 3", |b| b.sites[0].thirds[3].heard = 1),
    ("thirds of 255", |b| b.sites[0].thirds[255].heard = 1),
    ("pool", |b| b.pool |= one(3)),
    ("pool, last", |b| b.pool |= one(255)),
    ("entry in the pool", |b| b.entries[2] |= one(3)),
];

const FLIGHTS: [Change; 13] = [
    ("FIRST of 3", |b| b.flight.to[FIRST][3][0] = 1),
    ("DELIVER of 63", |b| b.flight.to[DELIVER][63][0] = 1),
    ("SECOND of 64", |b| b.flight.to[SECOND][64][0] = 1),
    ("DELIVER of 255", |b| b.flight.to[DELIVER][255][0] = 1),
    ("FIRST from 3", |b| b.flight.to[FIRST][0][3] = 1),
    ("SECOND from 6", |b| b.flight.to[SECOND][0][6] = 1),
    ("SECOND to 3", |b| b.flight.to[SECOND][0][0] = 8),
    ("DELIVER to 7", |b| b.flight.to[DELIVER][0][0] = 0x80),
    ("THIRD not to its owner", |b| b.flight.to[THIRD][0][1] = 2),
    ("THIRD to more", |b| b.flight.to[THIRD][0][1] = 3),
    ("THIRD of 3", |b| b.flight.to[THIRD][3][1] = 1),
    ("carried", |b| b.flight.carried[1][0] |= one(3)),
    ("carried, last", |b| b.flight.carried[1][0] |= one(255)),
];

const LISTS: [Change; 16] = [
    ("log names 3", |b| b.log.push(3)),
    ("log names 255", |b| b.log.push(255)),
    ("log twice", |b| b.log.push(1)),
    ("record names 3", |b| b.sites[1].record.push(3)),
    ("record names 64", |b| b.sites[1].record.push(64)),
    ("record names 255", |b| b.sites[1].record.push(255)),
    ("record twice", |b| b.sites[1].record.push(0)),
    ("place", |b| b.sites[0].place = 2),
    ("place, down", |b| {
        b.down = 1;
        b.sites[0].place = usize::MAX;
    }),
    ("log lost", |b| b.log.clear()),
    ("pool not finished", |b| b.sites[1].finished &= !one(2)),
    ("log not finished", |b| b.sites[0].finished &= !one(1)),
    ("finished elsewhere", |b| {
        b.sites[1].finished &= !one(2);
        b.sites[0].finished |= one(2);
    }),
    ("in pool and log", |b| b.pool |= one(1)),
    ("entry in the log", |b| b.entries[1] |= one(3)),
    ("entry in the log, word 2", |b| b.entries[1] |= one(191)),
];

#[test]
fn one_per_cause() {
    for list in [NUMBERS.as_slice(), &SETS, &FLIGHTS, &LISTS] {
        for (name, change) in list {
            let mut board = rich();
            change(&mut board);
            refuses_all(name, board);
        }
    }
}

/// The board handed in with each of its postings replaced, also by a NET of the whole house, which is no cause.
#[test]
fn the_mark_of_every_account() {
    for m in 0..3 {
        let owner = rich().postings[m].owner;
        let with = |kind, a, b, amount| {
            let mut board = rich();
            board.postings[m] = Posting {
                owner,
                kind,
                a,
                b,
                amount,
            };
            board
        };
        for (kind, a, b, amount) in MISUSES {
            let name = format!("{m} is {kind} {a} {b} {amount}");
            let board = with(kind, a, b, amount);
            assert_eq!(board.cause(), Some(Cause::Fields), "{name}");
            refuses_all(&name, board);
        }
        let mut board = with(3, 255, 255, 0);
        assert_eq!(board.cause(), None);
        assert_eq!(no(board.clone().crash(0)), 0);
        assert_eq!(no(board.books(0, &mut [0; FIGURES])), 0);
        assert_eq!(no(board.drain(DRAIN)), 0);
        assert!(board.is_sound());
    }
}

#[test]
fn nothing_else_is_a_cause() {
    let changes: [Change; 12] = [
        ("all down", |b| b.down = 7),
        ("held unseen", |b| b.sites[0].seen = Set::EMPTY),
        ("f lowered", |b| b.f = 0),
        ("GOOD unheard", |b| b.sites[0].seconds[0].heard = 0),
        ("THIRD heard elsewhere", |b| b.sites[2].thirds[0].heard = 7),
        ("FIRST not from its owner", |b| b.flight.to[FIRST][0][2] = 7),
        ("DELIVER of the pooled", |b| b.flight.to[DELIVER][2][2] = 7),
        ("record empty", |b| b.sites[0].record.clear()),
        ("delivered untold", |b| b.sites[0].told = Set::EMPTY),
        ("nothing finished but 1 and 2", |b| {
            b.sites[0].finished = one(1)
        }),
        ("slot 5 is no site", |b| b.sites[5].seen = Set::ALL),
        ("no such entry", |b| b.entries[0] = Set::ALL),
    ];
    for (name, change) in changes {
        let mut board = rich();
        change(&mut board);
        assert!(board.is_sound(), "{name}");
        assert_ne!(no(board.clone().crash(0)), 6, "{name}");
        assert_eq!(no(board.drain(DRAIN)), 0, "{name}");
        assert!(board.is_sound(), "{name}");
    }
}
