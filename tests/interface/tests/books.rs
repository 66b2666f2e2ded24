// Holds: the C program of examples/c on every example, on refused files and on what it cannot read.
// Rests on: interface, the folder examples, the model and the text package for what the board and the books are.

use interface::books::{built, read_back, run, C, CPP};
use interface::{path, text_of};
use model::{decode, Board, FIGURES};
use std::fs;
use std::path::{Path, PathBuf};
use text::played;
use text::statement::DRAIN;

const FOLDER: &str = env!("CARGO_TARGET_TMPDIR");

/// What the program prints for a file that it can read.
fn printed(program: &Path, file: &Path, events: Option<&str>) -> String {
    let output = run(program, file, events);
    assert!(output.status.success() && output.stderr.is_empty());
    String::from_utf8(output.stdout).expect("it prints text")
}

/// The count of a drain with this limit and the books of all sites after it, by the model.
fn drained(mut board: Board, limit: u64) -> (u64, Vec<i64>) {
    let (count, _) = board.drain(limit).expect("the board is sound");
    let mut figures = vec![0; FIGURES * usize::from(board.n)];
    let filled = board.books_of_all(&mut figures);
    filled.expect("there is room for all sites");
    (count, figures)
}

/// The run files of the examples.
fn files() -> Vec<PathBuf> {
    let entries = fs::read_dir(path("examples")).unwrap().flatten();
    let files = entries.map(|entry| entry.path().join("run.bin"));
    files.filter(|file| file.exists()).collect()
}

#[test]
fn year_is_as_stored() {
    let year = path("examples/year/run.bin");
    for (of, name) in [(C, "year-by-c"), (CPP, "year-by-c++")] {
        let program = built(of, FOLDER, name);
        let stored = text_of("examples/c/year.out");
        assert_eq!(printed(&program, &year, None), stored);
    }
}

#[test]
fn one_account_is_as_stored() {
    let program = built(C, FOLDER, "one-account");
    let morning = path("examples/one-account/run.bin");
    let stored = text_of("examples/c/one-account.out");
    assert_eq!(printed(&program, &morning, Some("0")), stored);
}

#[test]
fn other_words_for_the_events_are_refused() {
    let program = built(C, FOLDER, "usage");
    let year = path("examples/year/run.bin");
    for word in ["", " 0", "-1", "+1", "0x1", "1 ", "18446744073709551616"] {
        let output = run(&program, &year, Some(word));
        assert_eq!(output.status.code(), Some(1), "{word}");
        assert!(output.stdout.is_empty());
        assert_eq!(output.stderr, b"usage: books RUN_FILE [EVENTS]\n");
    }
}

#[test]
fn books_are_the_models() {
    let program = built(C, FOLDER, "books");
    let files = files();
    assert!(files.len() >= 4);
    for file in files {
        let input = fs::read(&file).unwrap();
        for (events, limit) in [(None, DRAIN), (Some("0"), 0), (Some("5"), 5)] {
            let text = printed(&program, &file, events);
            let board = model::run(&input);
            let rest = text.strip_prefix(&board);
            let rest = rest.expect("what `board` prints comes first");
            let expected = drained(played(&decode(&input).unwrap()).unwrap(), limit);
            assert_eq!(read_back(rest), expected, "{}", file.display());
        }
    }
}

#[test]
fn refusals_are_said_in_words() {
    let program = built(C, FOLDER, "refused");
    let file = Path::new(FOLDER).join("refused.bin");
    let starts: [(&[u8], &str); 5] = [
        (b"RUN\0\x02\x03\x01\x5B\x6C", "it is malformed"),
        (
            b"RUN\0\x01\x08\x01\x5B\x6C",
            "the number of sites is outside 3 to 7",
        ),
        (
            b"RUN\0\x01\x04\x02\x5B\x6C",
            "twice the crashes allowed is not below the number of sites",
        ),
        (b"RUN\0\x01\x03\x01\x5B\x6E", "its matrix is not symmetric"),
        (b"RUN\0\x01\x03\x01\0\0", "its matrix lacks a fixed pair"),
    ];
    for (number, (input, words)) in (1..).zip(starts) {
        fs::write(&file, input).unwrap();
        let said = format!("The run file is refused, number {number}: {words}.\n");
        let expected = format!("F {number}\n{said}");
        assert_eq!(printed(&program, &file, None), expected);
        assert_eq!(model::run(input), format!("F {number}\n"));
    }
    let long = [b"RUN\0\x01\x03\x01\x5B\x6C".as_slice(), &[0; 100_000]].concat();
    fs::write(&file, long).unwrap();
    assert!(printed(&program, &file, None).starts_with("F 1\n"));
}

#[test]
fn unread_files_are_said_on_standard_error() {
    let program = built(C, FOLDER, "unread");
    for name in ["examples/no-such-file", "examples"] {
        let output = run(&program, &path(name), None);
        assert_eq!(output.status.code(), Some(1));
        assert!(output.stdout.is_empty());
        let said = String::from_utf8(output.stderr).unwrap();
        assert!(said.starts_with("books: cannot read "), "{said}");
        assert!(said.ends_with('\n') && said.contains(name));
    }
}
