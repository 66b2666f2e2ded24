// Holds: the statement of runs by hand and at random, beside the books that the model shows.
// Rests on: text; the model and its generators.

use model::gen::{legal_start, random_mix, random_run};
use model::malform::{malformed_file, refused_file, FLAWS};
use model::prng::Prng;
use model::runfile::encode;
use model::{decode, FIGURES};
use text::statement::{table, DRAIN};
use text::{assemble, played, statement};

const SAME: &str = "All sites that are up show the same figures.";

#[test]
fn nothing_posted() {
    let file = assemble("sites 3\ncrashes 1\nmatrix 0x5B6C\ncrash 1\n").unwrap();
    let text = "Site 0 up\nno figures\nSite 1 down\nno figures\nSite 2 up\nno figures\n";
    assert_eq!(statement(&file), format!("{text}{SAME}\n"));
}

/// A rate, a trade, a call and a net one after another: negative numbers, and a call rounded up.
#[test]
fn all_four_figures() {
    let mut text = "sites 3\ncrashes 0\nmatrix 0x5B6C\noffer 0 RATE 15 15 250\n".to_string();
    text += "offer 1 TRADE 15 0 1001\noffer 0 CALL 15 15 0\noffer 2 NET 15 15 0\n";
    let books = "account 0 position -1001 rate 0 called 0 settled 0\n\
                 account 15 position 0 rate 250 called 26 settled 1001\n";
    let site = |s| format!("Site {s} up\n{books}");
    let whole = [site(0), site(1), site(2)].concat();
    assert_eq!(
        statement(&assemble(&text).unwrap()),
        format!("{whole}{SAME}\n")
    );
}

/// Before the drain sites may differ; a site that is down does not count.
#[test]
fn different_figures() {
    let mut text = "sites 3\ncrashes 1\nmatrix 0x5B6C\noffer 0 RATE 1 1 7\n".to_string();
    for sites in ["0 to 0", "0 to 1"] {
        text += &format!("receive FIRST 0 from {sites}\n");
    }
    for sites in ["0 to 0", "1 to 0", "0 to 1", "1 to 1"] {
        text += &format!("receive SECOND 0 from {sites}\n");
    }
    text += "receive THIRD 0 from 0 to 0\nreceive THIRD 0 from 1 to 0\n";
    text += "receive DELIVER 0 from 0 to 1\n";
    let shown = |text: &str| table(&played(&decode(&assemble(text).unwrap()).unwrap()).unwrap());
    let before = shown(&text);
    assert!(before.ends_with("\nSites that are up show different figures.\n"));
    let down = shown(&(text + "crash 1\n"));
    assert!(down.contains("Site 1 down\naccount 1 position 0 rate 7 called 0 settled 0\n"));
    assert!(down.ends_with(&format!("\n{SAME}\n")));
}

#[test]
fn refused_input_prints_what_board_prints() {
    let mut rng = Prng::new(61);
    for round in 0..200 {
        let flaw = FLAWS[round % FLAWS.len()];
        let files = [
            refused_file(&mut rng, 10),
            malformed_file(&mut rng, 10, flaw),
        ];
        for file in files {
            assert_eq!(statement(&file), model::run(&file));
        }
    }
}

/// The figures, read back from the statement's lines.
fn read_back(text: &str, n: u8) -> Vec<i64> {
    let mut figures = vec![0; FIGURES * usize::from(n)];
    let mut site = 0;
    for line in text.lines() {
        let words: Vec<&str> = line.split(' ').collect();
        match words[..] {
            ["Site", s, "up" | "down"] => site = s.parse().unwrap(),
            ["account", k, "position", p, "rate", r, "called", c, "settled", s] => {
                let at = FIGURES * site + 4 * k.parse::<usize>().unwrap();
                let four = [p, r, c, s].map(|word| word.parse().unwrap());
                figures[at..at + 4].copy_from_slice(&four);
            }
            ["no", "figures"] => {}
            _ => assert_eq!(line, SAME),
        }
    }
    figures
}

#[test]
fn figures_are_the_books() {
    let mut rng = Prng::new(62);
    for _ in 0..300 {
        let start = legal_start(&mut rng);
        let mix = random_mix(&mut rng);
        let run = random_run(&mut rng, start, 200, &mix);
        let mut board = played(&run).unwrap();
        board.drain(DRAIN).unwrap();
        let mut books = vec![0; FIGURES * usize::from(run.n)];
        board.books_of_all(&mut books).unwrap();
        let text = statement(&encode(&run).unwrap());
        assert_eq!(read_back(&text, run.n), books);
        assert!(text.ends_with(&format!("\n{SAME}\n")));
    }
}
