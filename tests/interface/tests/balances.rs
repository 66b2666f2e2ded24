// Holds: the C program balances of examples/c, on the example that is stored, on every example against the model, and where it is refused.
// Rests on: interface, the folder examples, the model and the text package for what the board is.

use interface::books::{built_from, C, CPP};
use interface::{path, text_of};
use model::{decode, Board};
use std::fs;
use std::path::Path;
use std::process::{Command, Output};
use text::played;

const FOLDER: &str = env!("CARGO_TARGET_TMPDIR");
const SOURCE: &str = "examples/c/balances.c";

fn run(program: &Path, file: &Path, pairs: &[u8]) -> Output {
    let words = pairs.iter().map(u8::to_string);
    let output = Command::new(program).arg(file).args(words).output();
    output.expect("the program was built")
}

/// What it prints for a file that it can read.
fn printed(program: &Path, file: &Path, pairs: &[u8]) -> String {
    let output = run(program, file, pairs);
    assert!(output.status.success() && output.stderr.is_empty());
    String::from_utf8(output.stdout).expect("it prints text")
}

/// What it must print, by the model: a line for each pair, and the count of places visited.
fn expected(board: &Board, pairs: &[u8]) -> String {
    let mut lent = vec![0; 2 * pairs.len()];
    let visited = board.look_up(pairs, &mut lent).expect("it is accepted");
    let line = |(pair, four): (&[u8], &[i64])| {
        let [site, account] = pair else {
            unreachable!()
        };
        let [position, rate, called, settled] = four else {
            unreachable!()
        };
        format!("site {site}, account {account}: position {position} cents, rate {rate} per 10,000, called {called} cents, settled {settled} cents\n")
    };
    let lines: String = pairs.chunks(2).zip(lent.chunks(4)).map(line).collect();
    format!("{lines}Places of records visited: {visited}\n")
}

#[test]
fn the_desk_is_as_stored() {
    let morning = path("examples/one-account/run.bin");
    let pairs = [2, 5, 0, 5, 1, 5, 1, 7, 0, 7];
    for (of, name) in [(C, "desk-by-c"), (CPP, "desk-by-c++")] {
        let program = built_from(SOURCE, of, FOLDER, name);
        let stored = text_of("examples/c/balances.out");
        assert_eq!(printed(&program, &morning, &pairs), stored);
    }
}

/// All accounts of all sites, the last site first.
#[test]
fn every_example_is_as_the_model_has_it() {
    let program = built_from(SOURCE, C, FOLDER, "desk");
    let mut seen = 0;
    for entry in fs::read_dir(path("examples")).unwrap().flatten() {
        let file = entry.path().join("run.bin");
        let Ok(bytes) = fs::read(&file) else { continue };
        let run = decode(&bytes).expect("an example is well formed");
        let board = played(&run).expect("its start is accepted");
        let pairs: Vec<u8> = (0..board.n)
            .rev()
            .flat_map(|site| (0..16).flat_map(move |account| [site, account]))
            .collect();
        assert_eq!(printed(&program, &file, &pairs), expected(&board, &pairs));
        seen += 1;
    }
    assert!(seen > 5);
}

#[test]
fn refusals_are_told_in_words() {
    let program = built_from(SOURCE, C, FOLDER, "desk-refused");
    let morning = path("examples/one-account/run.bin");
    let site = "Refused, number 7: a site is named that the board does not have.\n";
    assert_eq!(printed(&program, &morning, &[0, 5, 3, 5]), site);
    assert_eq!(printed(&program, &morning, &[3, 16]), site);
    let account = "Refused, number 18: an account is named that there is not.\n";
    assert_eq!(printed(&program, &morning, &[0, 16]), account);
    let file = "Refused, number 1: the run file is malformed.\n";
    assert_eq!(printed(&program, &path("README.md"), &[0, 5]), file);
    assert_eq!(run(&program, &morning, &[0]).status.code(), Some(1));
    assert_eq!(
        run(&program, &path("nowhere"), &[0, 5]).status.code(),
        Some(1)
    );
}
