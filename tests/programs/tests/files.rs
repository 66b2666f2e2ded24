// Holds: the files are enough, the same for the same seed, and meet every answer that the programs can print.
// Rests on: programs, the model.

use model::prng::Prng;
use model::set::below;
use model::{decode, nets_house, Call, FIGURES, MAX_EVENTS, POSTINGS, SITES};
use programs::carried::carried_run;
use programs::files::{numbers, SORTS, STARTS};
use programs::full::{full_file, netted_file, trades_file};
use programs::programs::MODEL;
use std::collections::{BTreeMap, BTreeSet};
use std::sync::OnceLock;
use text::played;
use text::statement::DRAIN;

const SEED: u64 = 1;

/// The files of a seed: of each sort one in so many.
fn made(seed: u64, each: usize) -> Vec<Vec<u8>> {
    let mut files = Vec::new();
    for sort in &SORTS {
        for k in (0..sort.count).step_by(each) {
            files.push(sort.file(&mut numbers(seed, sort, k), k));
        }
    }
    files
}

/// All files of one seed, made once.
fn files() -> &'static [Vec<u8>] {
    static FILES: OnceLock<Vec<Vec<u8>>> = OnceLock::new();
    FILES.get_or_init(|| made(SEED, 1))
}

#[test]
fn same_seed_same_files() {
    assert_eq!(made(SEED, 20), made(SEED, 20));
    assert_ne!(made(SEED, 20), made(SEED + 1, 20));
}

/// Few files come twice.
#[test]
fn enough_files() {
    let different: BTreeSet<&Vec<u8>> = files().iter().collect();
    assert!(files().len() >= 5_000 && different.len() >= 5_000);
}

/// What a line of `board` answers, without the numbers that count or list.
fn answer(line: &str) -> String {
    let words: Vec<&str> = line.split(' ').collect();
    match words[..] {
        ["E", _, "no", number] => format!("E no {number}"),
        ["E", _, "ok"] => "E ok".to_string(),
        ["S", _, state, ..] => format!("S {state}"),
        ["L"] => "L empty".to_string(),
        ["L", ..] => "L long".to_string(),
        _ => line.to_string(),
    }
}

/// Refusals 1 to 5 of whole files, and 7 to 15 of events; 6 and 16 are for boards and slices handed in.
#[test]
fn every_answer_comes_often() {
    let mut met: BTreeMap<String, u64> = BTreeMap::new();
    for file in files() {
        for line in model::run(file).lines() {
            *met.entry(answer(line)).or_default() += 1;
        }
    }
    let whole = (1..=5).map(|k| format!("F {k}"));
    let events = (7..=15).map(|k| format!("E no {k}"));
    let others = [
        "E ok", "S up", "S down", "L empty", "L long", "Q yes", "Q no",
    ];
    for answer in whole.chain(events).chain(others.map(String::from)) {
        let times = met.get(&answer).copied().unwrap_or(0);
        assert!(times >= 100, "{answer}: {times} times");
    }
}

/// Which of the calls that can be cut an accepted cut was at: 1 offer, 2 receive, 4 read.
fn cuts_at(file: &[u8], calls: &[Call]) -> BTreeSet<u8> {
    let answers = model::run(file);
    let accepted = calls.iter().zip(answers.lines());
    accepted
        .filter(|(_, line)| line.ends_with("ok"))
        .filter_map(|(call, _)| match call {
            Call::Offer { cut: Some(_), .. } => Some(1),
            Call::Receive { cut: Some(_), .. } => Some(2),
            Call::Read { cut: Some(_), .. } => Some(4),
            _ => None,
        })
        .collect()
}

/// For every n and f: runs with as many sites down as may be, with each call cut, and as long as a run may be.
#[test]
fn every_start_has_its_faults() {
    let mut met: BTreeMap<(u8, u8), (BTreeSet<u8>, u32, usize)> = BTreeMap::new();
    for file in files() {
        let Ok(run) = decode(file) else { continue };
        let Ok(board) = played(&run) else { continue };
        let (cuts, down, length) = met.entry((run.n, run.f)).or_default();
        cuts.extend(cuts_at(file, &run.calls));
        *down = board.down.count_ones().max(*down);
        *length = run.calls.len().max(*length);
    }
    for start in STARTS {
        let (cuts, down, length) = &met[&start];
        assert_eq!(*down, u32::from(start.1));
        assert!(*length >= MAX_EVENTS - 2);
        assert_eq!(cuts.len(), if start.1 == 0 { 0 } else { 3 }, "{start:?}");
    }
}

/// The longest text that a run file was found to have: 4,096 events at seven sites whose records are full.
#[test]
fn full_records_make_the_longest_text() {
    let text = model::run(&full_file(7));
    let records = text.lines().filter(|line| line.starts_with('S'));
    for record in records {
        assert!(record.ends_with(" 254 255"), "{record}");
        assert_eq!(record.split(' ').count(), 3 + POSTINGS);
    }
    assert!(text.contains("\nE 4096 no 10\n"));
    let longest = files().iter().map(|file| model::run(file).len()).max();
    assert_eq!(longest, Some(text.len()));
    assert!(text.len() > 50_000, "{}", text.len());
}

/// Of the postings offered at random about one in twenty nets the whole house, and many stand in records before any
/// drain.
#[test]
fn house_nets_come_often() {
    let drawn = ["mixed runs", "carried to the end", "offers alone"];
    let mixes = SORTS.iter().filter(|sort| drawn.contains(&sort.name));
    let (mut offered, mut nets, mut boards) = (0, 0, 0);
    for sort in mixes {
        for k in 0..sort.count {
            let file = sort.file(&mut numbers(SEED, sort, k), k);
            let board = played(&decode(&file).unwrap()).unwrap();
            let nets_at = |m: &&u8| nets_house(&board.postings[usize::from(**m)]);
            let recorded = |site: &model::Site| site.record.iter().filter(nets_at).count();
            offered += board.postings.len();
            nets += board.postings.iter().filter(|p| nets_house(p)).count();
            boards += usize::from(board.sites.iter().any(|site| recorded(site) > 0));
        }
    }
    assert!(
        (4 * offered..=6 * offered).contains(&(100 * nets)),
        "{nets} of {offered}"
    );
    assert!(boards >= 100, "{boards}");
}

/// All four words of its set are full but for its own number.
#[test]
fn a_house_net_carries_all_others() {
    let last = POSTINGS - 1;
    for n in 3..=7 {
        let board = played(&decode(&netted_file(n)).unwrap()).unwrap();
        assert_eq!(board.postings.iter().position(nets_house), Some(last));
        assert_eq!(board.entries[last], below(last));
        assert_eq!(board.log, [last as u8]);
    }
}

/// They need every event of the limit that is proved to be enough.
#[test]
fn longest_drains_use_the_whole_limit() {
    for f in 0..4 {
        let count = (MODEL.run_drain)(&trades_file(7, f), u64::MAX, &mut [0; FIGURES * SITES]);
        assert_eq!(count, DRAIN);
    }
}

#[test]
fn carried_runs_end_in_all_records() {
    let mut rng = Prng::new(71);
    for (n, postings) in [(3, 8), (3, 64), (5, 32), (5, 64), (7, 8), (7, 64)] {
        let run = carried_run(&mut rng, (n, (n - 1) / 2, 0x5B6C), postings, 16);
        let board = played(&run).unwrap();
        assert_eq!(board.postings.len(), postings);
        for site in &board.sites[..usize::from(n)] {
            assert_eq!(site.record.len(), postings, "{n} sites");
        }
    }
}
