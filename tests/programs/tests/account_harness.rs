// Holds: the questions about one account are put where they should be, and books that answer them wrongly are found out.
// Rests on: programs, the model.

use model::posting::{CALL, RATE, TRADE};
use model::{Board, Posting, FIGURES, SITES};
use programs::accounts::{ask, ask_board, ask_sort, Asked};
use programs::files::{numbers, SORTS};
use programs::programs::{left_by, Drains, MODEL, NONE};
use programs::stack::on_large_stack;

fn posting(kind: u8, a: u8, b: u8, amount: u32) -> Posting {
    Posting {
        owner: 0,
        kind,
        a,
        b,
        amount,
    }
}

/// Three sites with these records of RATE 0 (of 1), TRADE 1 (3 and 4) and TRADE 2 (1 and 2); site 2's is empty.
fn board(records: [&[u8]; 2]) -> Board {
    let (mut board, _) = Board::start(3, 1, 0x5B6C);
    board.postings = vec![
        posting(RATE, 1, 1, 250),
        posting(TRADE, 3, 4, 500),
        posting(TRADE, 1, 2, 1001),
    ];
    for (site, record) in records.iter().enumerate() {
        board.sites[site].record = record.to_vec();
    }
    board
}

fn books(board: &Board) -> [i64; FIGURES * SITES] {
    let mut figures = [0; FIGURES * SITES];
    board
        .books_of_all(&mut figures)
        .expect("the board is sound");
    figures
}

/// Records 0 1 2, and 2 0, and none. Sites 0 and 1 are asked about account 1, whose two postings they have in different
/// orders, and account 2. They differ in 3 and 4; site 2 differs from site 0 in all four, and from site 1 in 1 and 2.
#[test]
fn what_is_asked() {
    let board = board([&[0, 1, 2], &[2, 0]]);
    let asked = ask_board(&board, &books(&board)).unwrap();
    let wanted = Asked {
        boards: 1,
        in_flight: 0,
        pairs: 1,
        different: 1,
        apart: 1,
        down: 0,
        questions: 2,
        reordered: 1,
        other_numbers: 8,
    };
    assert_eq!(asked, wanted);
}

#[test]
fn a_site_that_is_down_is_asked() {
    let mut board = board([&[0, 1, 2], &[2, 0]]);
    board.down = 2;
    let asked = ask_board(&board, &books(&board)).unwrap();
    assert_eq!((asked.pairs, asked.down), (1, 1));
}

/// A rate and a call of one account conflict: two records that have them in different orders do not show the same.
#[test]
fn records_without_one_order_are_found() {
    let mut board = board([&[2, 0, 3], &[2, 3, 0]]);
    board.postings.push(posting(CALL, 1, 1, 0));
    let cause = ask_board(&board, &books(&board)).unwrap_err();
    let held = "the sites hold [2, 0, 3] and [2, 3, 0]";
    let shown = "and show [1001, 250, 26, 0] and [1001, 250, 0, 0]";
    let words = format!("sites 0 and 1, account 1: {held}, {shown}");
    assert_eq!(cause, words);
}

#[test]
fn the_model_answers_itself() {
    for sort in &SORTS[2..] {
        ask_sort(MODEL.run_drain, 2, sort).unwrap();
    }
}

/// Some of these runs, which end with all postings in all records, shows that these books are wrong.
fn found(drains: Drains) {
    let sort = &SORTS[3];
    let cause = on_large_stack(|| {
        (0..60).find_map(|k| {
            let file = sort.file(&mut numbers(3, sort, k), k);
            ask(drains, &file, 0).err()
        })
    });
    let cause = cause.expect("a difference is found");
    assert!(cause.contains("the sites hold "), "{cause}");
}

#[test]
fn wrong_books_are_found() {
    found(|input, limit, out| {
        let count = (MODEL.run_drain)(input, limit, out);
        out[FIGURES + 4] += 1;
        count
    });
    // a record's first posting is left out
    found(|input, _, out| {
        let Ok(mut board) = left_by(input) else {
            return NONE;
        };
        for site in &mut board.sites {
            site.record.drain(..site.record.len().min(1));
        }
        board.books_of_all(out).expect("the board is sound");
        0
    });
}
