// Holds: the books of a record and of several sites, compared.
// Rests on: proved, inputs, tally, the model.

use crate::inputs::{
    any_record, damage_record, damage_rows, damage_sites, is_sound, lent, postings, rows,
    site_bytes, sound_table,
};
use crate::proved::{self, COUNT, DONE, RECORD, REFUSED};
use crate::tally::Tally;
use model::posting::{CALL, MAX_AMOUNT, MAX_RATE, NET, RATE, TRADE};
use model::prng::Prng;
use model::{Board, Posting, FIGURES, FIXED_PAIRS, HOUSE_NET, POSTINGS, SITES};

/// The postings of a table's bytes, if all are sound.
fn sound(rows: &[u8]) -> Option<Vec<Posting>> {
    postings(rows).filter(|table| table.iter().all(is_sound))
}

/// Whether the record is not too long, and has numbers of a table with so many postings alone.
fn names(record: &[u8], count: usize) -> bool {
    record.len() <= POSTINGS && record.iter().all(|&m| usize::from(m) < count)
}

/// The model's books of these records, put into the slice; nothing if something is out of range.
fn model_books(rows: &[u8], records: &[&[u8]], out: &[i64]) -> (u8, Vec<i64>) {
    let mut wanted = out.to_vec();
    let Some(table) = sound(rows) else {
        return (REFUSED, wanted);
    };
    let fit = records.len() <= SITES && out.len() >= FIGURES * records.len();
    if !fit || !records.iter().all(|record| names(record, table.len())) {
        return (REFUSED, wanted);
    }
    let mut board = Board::blank();
    board.postings = table;
    let (parts, _) = wanted.as_chunks_mut();
    for (site, (record, figures)) in records.iter().zip(parts).enumerate() {
        board.sites[site].record = record.to_vec();
        board.fill(site, figures);
    }
    (DONE, wanted)
}

fn same_books(tally: &mut Tally, rows: &[u8], record: &[u8], out: &mut [i64]) {
    let wanted = model_books(rows, &[record], out);
    let answer = proved::books(rows, record, out);
    tally.same(wanted.0 == DONE, (answer, out.to_vec()), wanted, || {
        format!("{rows:?} {record:?}")
    });
}

/// Records whose sums are as large as they can be: so many TRADEs one way, then RATE, and CALLs and NETs; last a NET of
/// the whole house, of accounts that were netted or not.
fn largest_books(tally: &mut Tally) {
    let posting = |kind, a, b, amount: u64| Posting {
        owner: 0,
        kind,
        a,
        b,
        amount: amount as u32,
    };
    for trades in 0..=POSTINGS {
        for [a, b] in [[0, 15], [15, 0], [7, 8]] {
            let mut table = vec![posting(TRADE, a, b, MAX_AMOUNT); trades];
            for k in [a, b] {
                table.push(posting(RATE, k, k, MAX_RATE));
                table.push(posting(CALL, k, k, 0));
                table.push(posting(CALL, k, k, 0));
                table.push(posting(NET, k, k, 0));
            }
            table.truncate(POSTINGS - 1);
            table.push(HOUSE_NET);
            let record: Vec<u8> = (0..table.len()).map(|m| m as u8).collect();
            let turned: Vec<u8> = record.iter().rev().copied().collect();
            for record in [record, turned] {
                same_books(tally, &rows(&table), &record, &mut [-1; FIGURES + 1]);
            }
        }
    }
}

pub fn books(tally: &mut Tally) {
    largest_books(tally);
    let mut rng = Prng::new(7);
    for _ in 0..100_000 {
        let table = sound_table(&mut rng);
        let mut bytes = rows(&table);
        let mut record = any_record(&mut rng, table.len());
        if rng.percent(10) {
            damage_rows(&mut rng, &mut bytes);
        }
        if rng.percent(10) {
            damage_record(&mut rng, &mut record, table.len());
        }
        let mut out = lent(&mut rng, FIGURES);
        same_books(tally, &bytes, &record, &mut out);
    }
}

/// Each site's numbers, as its count says; nothing if the bytes are no whole records or a count is past their places.
fn records(bytes: &[u8]) -> Option<Vec<&[u8]>> {
    let (whole, rest) = bytes.as_chunks::<RECORD>();
    if !rest.is_empty() {
        return None;
    }
    whole
        .iter()
        .map(|site| site[COUNT..].get(..u16::from_be_bytes([site[0], site[1]]).into()))
        .collect()
}

fn same_books_of_all(tally: &mut Tally, rows: &[u8], sites: &[u8], out: &mut [i64]) {
    let wanted = match records(sites) {
        Some(records) => model_books(rows, &records, out),
        None => (REFUSED, out.to_vec()),
    };
    let answer = proved::books_all(rows, sites, out);
    tally.same(wanted.0 == DONE, (answer, out.to_vec()), wanted, || {
        format!("{rows:?} {sites:?}")
    });
}

pub fn books_of_all(tally: &mut Tally) {
    let mut rng = Prng::new(8);
    for _ in 0..40_000 {
        let table = sound_table(&mut rng);
        let any = rng.below(8) as usize;
        let n = rng.pick(&[1, 3, 5, 7, any]);
        let mut bytes = rows(&table);
        let mut sites: Vec<u8> = (0..n)
            .flat_map(|_| {
                let mut record = any_record(&mut rng, table.len());
                if rng.percent(2) {
                    damage_record(&mut rng, &mut record, table.len());
                    record.truncate(POSTINGS);
                }
                site_bytes(&mut rng, &record)
            })
            .collect();
        if rng.percent(5) {
            damage_rows(&mut rng, &mut bytes);
        }
        if rng.percent(10) {
            damage_sites(&mut rng, &mut sites);
        }
        let mut out = lent(&mut rng, FIGURES * n);
        same_books_of_all(tally, &bytes, &sites, &mut out);
    }
}

/// Boards that the model holds for sound: its books of all sites, refusal 16 included.
pub fn books_of_boards(tally: &mut Tally) {
    let mut rng = Prng::new(9);
    for _ in 0..20_000 {
        let n = rng.within(3, 7);
        let (mut board, started) = Board::start(n, 1, FIXED_PAIRS);
        assert!(started.is_ok());
        board.postings = sound_table(&mut rng);
        let mut sites = Vec::new();
        for site in 0..n as usize {
            let mut record = any_record(&mut rng, board.postings.len());
            let mut seen = [false; POSTINGS];
            record.retain(|&m| !std::mem::replace(&mut seen[usize::from(m)], true));
            sites.extend(site_bytes(&mut rng, &record));
            board.sites[site].record = record;
        }
        let mut out = lent(&mut rng, FIGURES * n as usize);
        let mut wanted = out.clone();
        let taken = match board.books_of_all(&mut wanted) {
            Ok(()) => DONE,
            Err(refusal) => {
                assert!(matches!(refusal, model::Refusal::SliceShort));
                REFUSED
            }
        };
        let answer = proved::books_all(&rows(&board.postings), &sites, &mut out);
        tally.same(taken == DONE, (answer, out), (taken, wanted), || {
            format!("{:?} {sites:?}", board.postings)
        });
    }
}
