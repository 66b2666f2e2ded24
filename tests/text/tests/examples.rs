// Holds: the examples of the repository: their files follow from run.txt, and show what their pages say.
// Rests on: text, the model, and the folder examples.

use model::posting::POSITION;
use model::{decode, effect, Board, FIGURES};
use std::fs;
use std::path::PathBuf;
use text::{assemble, disassemble, played, statement};

const NAMES: [&str; 8] = [
    "crash",
    "cut",
    "december",
    "full-day",
    "one-account",
    "three-calls",
    "whole-case",
    "year",
];

fn folder() -> PathBuf {
    PathBuf::from(env!("CARGO_MANIFEST_DIR")).join("../../examples")
}

fn file(name: &str, part: &str) -> Vec<u8> {
    let path = folder().join(name).join(part);
    fs::read(&path).unwrap_or_else(|error| panic!("{}: {error}", path.display()))
}

fn text_of(name: &str, part: &str) -> String {
    String::from_utf8(file(name, part)).unwrap()
}

/// The board after an example's events, and how many of them were refused.
fn board(name: &str) -> (Board, usize) {
    let board = played(&decode(&file(name, "run.bin")).unwrap()).unwrap();
    let refused = text_of(name, "board.out").matches(" no ").count();
    (board, refused)
}

#[test]
fn all_are_listed() {
    let entries = fs::read_dir(folder()).unwrap().flatten();
    let folders = entries.filter(|entry| entry.path().is_dir());
    let mut names: Vec<_> = folders.map(|entry| entry.file_name()).collect();
    names.sort();
    // audit has files of records, c a program, and neither a run file
    assert_eq!(names, [&["audit", "c"], &NAMES[..]].concat());
}

#[test]
fn files_follow_from_the_text() {
    for name in NAMES {
        let run = file(name, "run.bin");
        assert_eq!(assemble(&text_of(name, "run.txt")).as_ref(), Ok(&run));
        assert_eq!(assemble(&disassemble(&run).unwrap()).as_ref(), Ok(&run));
        assert_eq!(model::run(&run), text_of(name, "board.out"), "{name}");
        assert_eq!(statement(&run), text_of(name, "statement.out"), "{name}");
    }
}

#[test]
fn whole_case_is_document_01s() {
    let lines = "E 1 ok\nE 2 ok\nE 3 no 11\nS 0 up\nS 1 up\nS 2 up\nL\nQ no\n";
    assert_eq!(text_of("whole-case", "board.out"), lines);
}

/// Records of the same postings in different orders; two that conflict stand as in the log.
#[test]
fn year() {
    let (board, refused) = board("year");
    assert_eq!(refused, 0);
    let [a, b, _, ..] = board.sites.map(|site| site.record);
    assert_ne!(a, b);
    let sorted = |record: &[u8]| {
        let mut list = record.to_vec();
        list.sort();
        list
    };
    assert_eq!(sorted(&a), (0..14).collect::<Vec<u8>>());
    assert_eq!(sorted(&a), sorted(&b));
    let [rate, call] = [7, 8].map(|m| board.postings[m]);
    assert!(model::conflict(board.matrix, &rate, &call));
    for list in [&a, &b, &board.log] {
        let place = |m: u8| list.iter().position(|x| *x == m);
        assert!(place(8) < place(7) && place(8).is_some());
    }
}

/// The NET of the whole house conflicts with every trade and call, and stands after them in three different records;
/// the entry by which it comes carries a posting that a site lacks. All is settled.
#[test]
fn december() {
    let (board, refused) = board("december");
    assert_eq!(refused, 0);
    assert!(model::nets_house(&board.postings[4]));
    assert!(model::set::has(board.entries[4], 1));
    let records = board.sites.clone().map(|site| site.record);
    let ends: Vec<_> = records[..3].iter().map(|record| record.last()).collect();
    assert_eq!(ends, [Some(&4); 3]);
    assert!(records[0] != records[1] && records[1] != records[2] && records[2] != records[0]);
    let netted = text_of("december", "statement.out");
    let accounts = netted.lines().filter(|line| line.starts_with("account"));
    assert_eq!(accounts.clone().count(), 18);
    assert!(accounts.clone().all(|line| line.contains(" position 0 ")));
    let settled = accounts.map(|line| line.rsplit(' ').next().unwrap().parse::<i64>());
    assert_eq!(settled.sum::<Result<i64, _>>(), Ok(0));
    assert_eq!(netted.matches(" called 12500 settled 500000\n").count(), 3);
}

/// An account is called 45,000 as a buyer, nothing as a seller and 1 as a buyer again. The log has the sale ahead of the
/// second call, which it was offered with.
#[test]
fn three_calls() {
    let (board, refused) = board("three-calls");
    assert_eq!(refused, 0);
    assert_eq!(board.log, [3, 4, 5, 6, 7, 8]);
    let records = board.sites.clone().map(|site| site.record);
    assert!(records[0] != records[1] && records[1] != records[2] && records[2] != records[0]);
    let books = "account 7 position 1 rate 500 called 45001 settled 0\n\
                 account 8 position -1 rate 500 called 0 settled 0\n";
    let stated = text_of("three-calls", "statement.out");
    assert_eq!(stated.matches(books).count(), 3);
    for record in &records[..3] {
        let positions = [3, 4, 6, 8].map(|call| position_at(&board, record, call));
        assert_eq!(positions, [900_000, -900_000, -600_000, 1]);
    }
}

/// The position of the account that a call names, by what stands ahead of the call in a record.
fn position_at(board: &Board, record: &[u8], call: u8) -> i64 {
    let posting = |m: u8| &board.postings[usize::from(m)];
    let mut figures = [0; FIGURES];
    for m in record.iter().take_while(|m| **m != call) {
        effect(posting(*m), &mut figures);
    }
    figures[4 * usize::from(posting(call).a) + POSITION]
}

/// Three different records, one of a site that is down, with the same postings touching account 5 and not those touching
/// account 7, on a board that is not quiet.
#[test]
fn one_account() {
    let (board, refused) = board("one-account");
    assert_eq!((refused, board.down), (0, 4));
    let records = board.sites.clone().map(|site| site.record);
    assert_eq!(
        records[..3],
        [vec![0, 1, 2, 3], vec![1, 0, 3], vec![2, 1, 0, 3]]
    );
    assert!(text_of("one-account", "board.out").ends_with("\nQ no\n"));
    let mut figures = [0; 3 * FIGURES];
    board.books_of_all(&mut figures).unwrap();
    let shown = |account: usize| {
        let from = |site| FIGURES * site + 4 * account;
        [0, 1, 2].map(|site| figures[from(site)..from(site) + 4].to_vec())
    };
    assert_eq!(shown(5), [[400_000, 300, 12_000, 0]; 3].map(Vec::from));
    let [a, b, c] = shown(7);
    assert_eq!((a[0], b[0], c[0]), (120_000, 0, 120_000));
}

/// One entry carries all but its own posting, and one offer is too many.
#[test]
fn full_day() {
    let (board, refused) = board("full-day");
    assert_eq!(refused, 1);
    assert!(text_of("full-day", "board.out").contains("no 10\n"));
    assert_eq!(board.log, [255]);
    assert_eq!(board.entries[255], model::set::below(255));
    for site in &board.sites[..3] {
        assert_eq!(site.record, (0..=255).collect::<Vec<u8>>());
    }
}

/// What a drain brings to the records of the sites, with those that are down.
fn drained(name: &str) -> (u8, Vec<Vec<u8>>) {
    let (mut board, _) = board(name);
    assert!(!board.is_quiet());
    board.drain(text::statement::DRAIN).unwrap();
    assert!(board.is_quiet());
    let sites = &board.sites[..usize::from(board.n)];
    let records = sites.iter().map(|site| site.record.clone());
    (board.down, records.collect())
}

#[test]
fn drains() {
    assert_eq!(drained("whole-case"), (0, vec![vec![0]; 3]));
    assert_eq!(drained("cut"), (0b001, vec![vec![], vec![0], vec![0]]));
    let records = vec![vec![0, 2], vec![0, 2], vec![0]];
    assert_eq!(drained("crash"), (0b100, records));
    assert!(drained("year").1.iter().all(|record| record.len() == 14));
    assert_eq!([board("cut").1, board("crash").1], [1, 2]);
}
