// Holds: the twin's audit agrees with the scan of pairs on random small records, and its finding with the records.
// Rests on: the twin's audit; the model's postings and random numbers.

use model::gen::legal_matrix;
use model::prng::Prng;
use model::{conflict, Posting, HOUSE_NET};
use plain::audit::{audit_records, pairs_agree, Handed, Lent, FILLED};

const CASES: usize = 200_000;

/// Postings and records.
struct Case {
    matrix: u16,
    postings: Vec<Posting>,
    records: Vec<Vec<u16>>,
}

fn posting(rng: &mut Prng) -> Posting {
    if rng.percent(8) {
        return HOUSE_NET;
    }
    let kind = rng.below(4) as u8;
    let a = rng.below(3) as u8;
    let trade = kind == 0;
    Posting {
        owner: 0,
        kind,
        a,
        b: if trade { (a + 1) % 3 } else { a },
        amount: trade.into(),
    }
}

impl Case {
    /// Records in the order of the numbers, each with a few neighbours exchanged and a few lines left out.
    fn any(rng: &mut Prng) -> Case {
        let count = rng.within(1, 9) as usize;
        let postings = (0..count).map(|_| posting(rng)).collect();
        let sites = rng.within(1, 4);
        let record = |_| {
            let mut record: Vec<u16> = (0..count as u16).collect();
            for _ in 0..rng.below(4) {
                let i = rng.below(count as u64) as usize;
                record.swap(i, (i + 1) % count);
            }
            if rng.percent(15) {
                record.remove(rng.below(count as u64) as usize);
            }
            record.truncate(count - rng.below(count as u64) as usize / 2);
            record
        };
        let records = (0..sites).map(record).collect();
        Case {
            matrix: legal_matrix(rng),
            postings,
            records,
        }
    }

    /// The records up to a line of a site, which is left out.
    fn cut(&self, site: usize, line: usize) -> Case {
        let mut records = self.records[..=site].to_vec();
        records[site].truncate(line);
        Case {
            matrix: self.matrix,
            postings: self.postings.clone(),
            records,
        }
    }

    /// What the reading answers, and whether the scan finds no bad pair.
    fn answer(&self) -> (u64, [u64; FILLED], bool) {
        let fields = |field: fn(&Posting) -> u8| self.postings.iter().map(field).collect();
        let [kinds, firsts, seconds]: [Vec<u8>; 3] =
            [fields(|p| p.kind), fields(|p| p.a), fields(|p| p.b)];
        let amounts: Vec<u32> = self.postings.iter().map(|p| p.amount).collect();
        let lines = self.records.concat();
        let ends = self.records.iter().scan(0, |end, record| {
            *end += record.len();
            Some(*end)
        });
        let handed = Handed {
            matrix: self.matrix,
            kinds: &kinds,
            firsts: &firsts,
            seconds: &seconds,
            amounts: &amounts,
            lines: &lines,
            ends: &ends.collect::<Vec<usize>>(),
        };
        let count = kinds.len();
        let mut lent = Lent {
            marks: &mut vec![7; count],
            places: &mut vec![7; count],
            ahead: &mut vec![7; 8 * count],
        };
        let mut out = [7; FILLED];
        let code = audit_records(&handed, &mut lent, &mut out);
        (code, out, pairs_agree(&handed))
    }

    /// Whether the record of a site has x above y.
    fn above(&self, site: u64, x: u64, y: u64) -> bool {
        let place = |z: u64| {
            self.records[site as usize]
                .iter()
                .position(|&w| u64::from(w) == z)
        };
        matches!((place(x), place(y)), (Some(i), Some(j)) if i < j)
    }

    fn has(&self, site: u64, x: u64) -> bool {
        self.records[site as usize].contains(&(x as u16))
    }

    /// Whether the records show what the finding says of two postings that conflict.
    fn shows(&self, code: u64, out: &[u64; FILLED]) -> bool {
        let [_, _, _, _, x, y, here, there] = *out;
        let [p, q] = [x, y].map(|z| &self.postings[z as usize]);
        let mut sites = 0..self.records.len() as u64;
        let shown = match code {
            10 => self.above(here, x, y) && self.above(there, y, x),
            11 => self.has(here, y) && !self.has(here, x) && self.above(there, x, y),
            12 => {
                let both = |site| self.has(site, x) && self.has(site, y);
                self.has(here, x) && self.has(there, y) && !sites.any(both)
            }
            _ => false,
        };
        shown && conflict(self.matrix, p, q)
    }
}

#[test]
fn as_the_pairs_say() {
    let mut rng = Prng::new(1);
    let mut codes = [0; 13];
    for _ in 0..CASES {
        let case = Case::any(&mut rng);
        let (code, out, agree) = case.answer();
        codes[code as usize] += 1;
        assert_eq!(code == 0, agree);
        if code == 0 {
            assert_eq!(out, [0; FILLED]);
            continue;
        }
        assert!(case.shows(code, &out));
        let [site, line] = [out[0], out[1]].map(|number| number as usize);
        assert!(case.cut(site, line).answer().2);
        assert!(!case.cut(site, line + 1).answer().2);
    }
    let [agree, crossed, missing, apart] = [0, 10, 11, 12].map(|code| codes[code]);
    println!("agree {agree}, crossed {crossed}, missing {missing}, apart {apart}");
    assert_eq!(agree + crossed + missing + apart, CASES);
    assert!([agree, crossed, missing, apart]
        .iter()
        .all(|&count| count > 1_000));
}
