// Holds: the figures of one record, against the model's books and against plain sums, with what is refused.
// Rests on: figures, runs, large, any, proved; the model's books.

use audit::answer::{BAD_FIELDS, BAD_SIZES, UNKNOWN};
use audit::any;
use audit::figures::{answer, figures};
use audit::handed::Handed;
use audit::large::{posting, record};
use audit::proved::audit_figures;
use audit::runs::{file, handed_over, play, sorts};
use model::posting::{CALL, MAX_AMOUNT, MAX_RATE, NET, RATE, TRADE};
use model::prng::Prng;
use model::{Posting, FIGURES, FIXED_PAIRS, HOUSE_NET};
use std::collections::BTreeMap;
use std::io::Write;

const MOST: usize = 65_536;

/// Compares with the plain sums, and what lies beyond too.
fn compare(handed: &Handed) {
    let mut out = [-7; FIGURES + 3];
    assert_eq!(audit_figures(handed, &mut out), 0);
    assert_eq!(out[..FIGURES], figures(handed));
    assert_eq!(out[FIGURES..], [-7; 3]);
}

#[test]
fn records_of_runs() {
    let mut records = 0;
    for sort in sorts() {
        for k in 0..sort.count {
            let Some(board) = play(&file(13, sort, k), |_| ()) else {
                continue;
            };
            let all = handed_over(&board);
            for site in 0..usize::from(board.n) {
                let mut wanted = [0; FIGURES];
                board.fill(site, &mut wanted);
                let mut own = all.clone();
                own.replace(&[all.record(site).to_vec()]);
                let mut out = [1; FIGURES];
                assert_eq!(audit_figures(&own, &mut out), 0);
                assert_eq!(out, wanted, "{}, file {k}, site {site}", sort.name);
                records += 1;
            }
        }
    }
    let line = format!("figures of {records} records of runs are the model's");
    let _ = writeln!(std::io::stdout(), "{line}");
}

#[test]
fn the_longest_records() {
    let mut rng = Prng::new(41);
    for shares in [[2, 7, 1, 0], [5, 30, 5, 2], [1, 60, 0, 0]] {
        let postings: Vec<Posting> = (0..MOST).map(|_| posting(&mut rng, shares)).collect();
        let mut handed = Handed::new(FIXED_PAIRS, &postings);
        let lines = record(&mut rng, &handed, MOST);
        handed.record_of(&lines);
        compare(&handed);
        handed.lines.reverse();
        compare(&handed);
    }
}

/// The largest sums: TRADEs one way, then CALLs at the highest rate, or NETs, half of the lines or nearly all.
#[test]
fn the_largest_sums() {
    let of = |kind, a, b, amount: u64| Posting {
        owner: 0,
        kind,
        a,
        b,
        amount: amount as u32,
    };
    let mut handed = Handed::new(FIXED_PAIRS, &[]);
    handed.add(&of(TRADE, 0, 15, MAX_AMOUNT));
    handed.add(&of(RATE, 0, 0, MAX_RATE));
    handed.add(&of(CALL, 0, 0, 0));
    handed.add(&of(NET, 0, 0, 0));
    handed.add(&HOUSE_NET);
    // A number may stand in the lines many times here.
    for trades in [1, MOST / 2, MOST - 3] {
        for kind in 2..=4 {
            handed.lines = vec![0; MOST];
            handed.lines[0] = 1;
            handed.lines[trades + 1..].fill(kind);
            compare(&handed);
        }
        // In turns, so that a NET of all moves each TRADE.
        handed.lines = (0..MOST).map(|i| if i % 2 == 0 { 0 } else { 4 }).collect();
        compare(&handed);
    }
}

fn refused(handed: &Handed, length: usize, code: u64) {
    let mut out = vec![-7; length];
    assert_eq!(u64::from(audit_figures(handed, &mut out)), code);
    assert_eq!(out, vec![-7; length]);
}

#[test]
fn refusals() {
    let call = Posting {
        kind: CALL,
        ..Posting::default()
    };
    let mut handed = Handed::new(FIXED_PAIRS, &[call; 3]);
    handed.skip();
    compare(&handed);
    refused(&handed, FIGURES - 1, BAD_SIZES);
    handed.lines = vec![0; MOST];
    compare(&handed);
    handed.lines.push(0);
    refused(&handed, FIGURES, BAD_SIZES);
    for number in [3, 4, u16::MAX] {
        handed.lines = vec![0, 1, number];
        refused(&handed, FIGURES, UNKNOWN);
    }
    handed.kinds[2] = TRADE;
    refused(&handed, FIGURES, BAD_FIELDS);
    handed.amounts.pop();
    refused(&handed, FIGURES, BAD_SIZES);
    let mut most = Handed::new(FIXED_PAIRS, &[call; MOST]);
    most.lines = vec![u16::MAX];
    compare(&most);
    most.add(&call);
    refused(&most, FIGURES, BAD_SIZES);
}

#[test]
fn any_arguments() {
    let mut rng = Prng::new(42);
    let mut codes: BTreeMap<u8, u64> = BTreeMap::new();
    for _ in 0..200_000 {
        let handed = any::handed(&mut rng);
        let mut out = any::room(&mut rng, FIGURES, |word| word as i64);
        let wanted = answer(&handed, &out);
        let code = audit_figures(&handed, &mut out);
        *codes.entry(code).or_default() += 1;
        assert_eq!((code, out), wanted, "{handed:?}");
    }
    let _ = writeln!(
        std::io::stdout(),
        "figures of any arguments, by code: {codes:?}"
    );
    assert_eq!(codes.keys().copied().collect::<Vec<u8>>(), [0, 3, 5, 7]);
}
