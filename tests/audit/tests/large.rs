// Holds: as many postings as there may be, at seven sites: records that agree do, and faults are named at their line.
// Rests on: large, pairs, proved; the model's random numbers.

use audit::answer::{Answer, CROSSED};
use audit::handed::Handed;
use audit::large::{apart, exchanged, left_out, moved_up, posting, seven, Planted};
use audit::pairs;
use audit::proved::audited;
use model::prng::Prng;
use model::{Posting, FIXED_PAIRS, HOUSE_NET};
use std::io::Write;
use std::time::Instant;

const MOST: usize = 65_536;

/// The fixed pairs, and NET with NET.
const NETS_CONFLICT: u16 = FIXED_PAIRS | 1 << 15;

/// Of a hundred: RATE, CALL, NET of one account, NET of all; the rest are TRADE.
const MIXED: [u64; 4] = [2, 7, 1, 0];
const TENTH_OF_ALL: [u64; 4] = [2, 7, 1, 10];

fn postings(rng: &mut Prng, count: usize, shares: [u64; 4]) -> Vec<Posting> {
    (0..count).map(|_| posting(rng, shares)).collect()
}

/// Faults at random places and at both ends.
fn plant(rng: &mut Prng, handed: &Handed, records: &[Vec<u16>]) -> Vec<Planted> {
    let mut all = Vec::new();
    for round in 0..24 {
        let site = 1 + round % 6;
        let length = records[site].len() as u64;
        let line = rng.pick(&[0, length / 2, length - 2, rng.clone().below(length - 1)]) as usize;
        all.extend(moved_up(handed, records, site, line));
        all.extend(left_out(handed, records, site, line));
        let lines = line..(line + 1_000).min(records[0].len() - 1);
        let mut found = lines.filter_map(|line| exchanged(handed, records, line));
        all.extend(found.next());
    }
    all
}

/// Records that agree, then with each fault.
fn compare(name: &str, mut handed: Handed, rng: &mut Prng) {
    let records = seven(rng, &handed);
    handed.replace(&records);
    let start = Instant::now();
    assert_eq!(audited(&handed), Answer::default());
    let taken = start.elapsed().as_micros();
    let lines = handed.lines.len();
    let planted = plant(rng, &handed, &records);
    for fault in &planted {
        handed.replace(&fault.records);
        assert_eq!(audited(&handed), fault.wanted, "{name}");
    }
    let fault = apart(&mut handed, &records);
    handed.replace(&fault.records);
    assert_eq!(audited(&handed), fault.wanted, "{name}");
    let faults = planted.len() + 1;
    let line = format!("{name}: {lines} lines agree, {taken} µs; {faults} faults named");
    let _ = writeln!(std::io::stdout(), "{line}");
    assert!(faults > 20);
}

#[test]
fn mixed() {
    let mut rng = Prng::new(21);
    for count in [20_000, MOST] {
        let handed = Handed::new(FIXED_PAIRS, &postings(&mut rng, count, MIXED));
        compare(&format!("{count} mixed"), handed, &mut rng);
    }
}

#[test]
fn every_tenth_nets_all() {
    let mut rng = Prng::new(22);
    for matrix in [FIXED_PAIRS, NETS_CONFLICT, u16::MAX] {
        let handed = Handed::new(matrix, &postings(&mut rng, MOST, TENTH_OF_ALL));
        let name = format!("{MOST}, a tenth nets all, {matrix:#06x}");
        compare(&name, handed, &mut rng);
    }
}

#[test]
fn all_net_all() {
    let mut rng = Prng::new(23);
    let mut handed = Handed::new(NETS_CONFLICT, &[HOUSE_NET; MOST]);
    compare("all net all and conflict", handed.clone(), &mut rng);
    // Without the pair they conflict with nothing, and any order will do.
    handed.matrix = FIXED_PAIRS;
    let mut records = seven(&mut rng, &handed);
    records[3].reverse();
    records[6].drain(1_000..2_000);
    handed.replace(&records);
    assert_eq!(audited(&handed), Answer::default());
    handed.matrix = NETS_CONFLICT;
    assert_eq!(audited(&handed), first_difference(&records));
}

/// The answer where all conflict and the first two sites have all postings: at the first line where these differ, with
/// the lowest of what the first site has from there up to the second site's posting.
fn first_difference(records: &[Vec<u16>]) -> Answer {
    let mut lines = 0..records[0].len();
    let differ = lines.find(|&line| records[0][line] != records[1][line]);
    let line = differ.expect("the records are not the same");
    let y = records[1][line];
    let between = records[0][line..].iter().take_while(|&&x| x != y);
    let x = *between.min().expect("y stands below the line there");
    Answer {
        first: x.into(),
        second: y.into(),
        there: 1,
        ..Answer::at(CROSSED, 1, line, x.into())
    }
}

/// Against the scan of pairs, which is quadratic.
#[test]
fn as_the_pairs_say() {
    let mut rng = Prng::new(24);
    let mut handed = Handed::new(FIXED_PAIRS, &postings(&mut rng, 6_000, TENTH_OF_ALL));
    let records = seven(&mut rng, &handed);
    handed.replace(&records);
    assert!(pairs::agree(&handed));
    assert_eq!(audited(&handed), Answer::default());
    for fault in plant(&mut rng, &handed, &records).iter().step_by(8) {
        handed.replace(&fault.records);
        assert!(!pairs::agree(&handed));
        assert_eq!(pairs::audit(&handed), fault.wanted);
        assert_eq!(audited(&handed), fault.wanted);
    }
}
