// Holds: edge values, random postings, tables and records as bytes, damage to them, and slices to fill.
// Rests on: the model's postings and its generator of numbers.

use crate::proved::{COUNT, RECORD, ROW};
use model::gen::HOUSE_NETS;
use model::posting::{MAX_AMOUNT, MAX_RATE};
use model::prng::Prng;
use model::{fields_ok, Posting, HOUSE_NET, POSTINGS, SITES};

pub const EDGE_KINDS: [u8; 9] = [0, 1, 2, 3, 4, 5, 127, 128, 255];
pub const EDGE_ACCOUNTS: [u8; 10] = [0, 1, 2, 14, 15, 16, 17, 128, 254, 255];
pub const EDGE_AMOUNTS: [u32; 12] = [
    0,
    1,
    2,
    9_999,
    10_000,
    10_001,
    999_999_999,
    1_000_000_000,
    1_000_000_001,
    1 << 31,
    u32::MAX - 1,
    u32::MAX,
];

pub fn is_sound(p: &Posting) -> bool {
    fields_ok(p.kind.into(), p.a.into(), p.b.into(), p.amount.into())
}

/// A posting with sound fields: one of twenty is a NET of the whole house, the others are on accounts below a number
/// from 2 to 16.
pub fn sound_posting(rng: &mut Prng, accounts: u64) -> Posting {
    if rng.percent(HOUSE_NETS) {
        let owner = rng.below(3) as u8;
        return Posting { owner, ..HOUSE_NET };
    }
    let kind = rng.below(4) as u8;
    let a = rng.below(accounts);
    let (mut b, mut amount) = (a, 0);
    if kind == 0 {
        b = (a + rng.within(1, accounts - 1)) % accounts;
        let any = rng.within(1, MAX_AMOUNT);
        amount = rng.pick(&[1, MAX_AMOUNT, MAX_AMOUNT, any, any % 30_000 + 1]);
    } else if kind == 1 {
        let any = rng.within(0, MAX_RATE);
        amount = rng.pick(&[0, 1, 250, MAX_RATE, any, any]);
    }
    Posting {
        owner: rng.below(3) as u8,
        kind,
        a: a as u8,
        b: b as u8,
        amount: amount as u32,
    }
}

/// A posting with one field or more replaced by an edge value, which may be sound.
pub fn odd_posting(rng: &mut Prng) -> Posting {
    let mut p = sound_posting(rng, 16);
    if rng.percent(40) {
        p.kind = rng.pick(&EDGE_KINDS);
    }
    if rng.percent(40) {
        p.a = rng.pick(&EDGE_ACCOUNTS);
    }
    if rng.percent(40) {
        let edge = rng.pick(&EDGE_ACCOUNTS);
        p.b = rng.pick(&[p.a, edge]);
    }
    if rng.percent(40) {
        let [edge, any] = [rng.pick(&EDGE_AMOUNTS), rng.word() as u32];
        p.amount = rng.pick(&[edge, any]);
    }
    p
}

/// The matrices that a start accepts have the fixed pairs and some of the free ones; others are any bits.
pub fn any_matrix(rng: &mut Prng) -> u16 {
    if rng.percent(50) {
        return model::gen::legal_matrix(rng);
    }
    let [any, flipped] = [rng.word() as u16, model::gen::flipped_matrix(rng)];
    rng.pick(&[0, u16::MAX, any, flipped])
}

/// Owner, kind, a and b in a byte each, and the amount big-endian in four.
pub fn row(p: &Posting) -> [u8; ROW] {
    let [w, x, y, z] = p.amount.to_be_bytes();
    [p.owner, p.kind, p.a, p.b, w, x, y, z]
}

pub fn rows(postings: &[Posting]) -> Vec<u8> {
    postings.iter().flat_map(row).collect()
}

/// The postings of a table's bytes, if they are whole rows and not too many.
pub fn postings(rows: &[u8]) -> Option<Vec<Posting>> {
    let (whole, rest) = rows.as_chunks::<ROW>();
    if !rest.is_empty() || whole.len() > POSTINGS {
        return None;
    }
    let read = |&[owner, kind, a, b, w, x, y, z]: &[u8; ROW]| Posting {
        owner,
        kind,
        a,
        b,
        amount: u32::from_be_bytes([w, x, y, z]),
    };
    Some(whole.iter().map(read).collect())
}

/// A count up to the most there may be, often at an end or where a word of a set ends; mostly few.
pub fn any_count(rng: &mut Prng) -> usize {
    let any = rng.below(POSTINGS as u64 + 1) as usize;
    let few = rng.below(24) as usize;
    let ends = rng.pick(&[0, 1, 2, 63, 64, 65, POSTINGS - 1, POSTINGS, POSTINGS]);
    rng.pick(&[ends, ends, any, few, few, few])
}

/// Postings with sound fields, on few accounts or on all.
pub fn sound_table(rng: &mut Prng) -> Vec<Posting> {
    let accounts = rng.pick(&[2, 2, 3, 5, 16]);
    (0..any_count(rng))
        .map(|_| sound_posting(rng, accounts))
        .collect()
}

/// So many posting numbers below a count that is not 0; some come twice.
pub fn numbers(rng: &mut Prng, length: usize, count: usize) -> Vec<u8> {
    (0..length).map(|_| rng.below(count as u64) as u8).collect()
}

/// A record of a table's postings, mostly with each number once.
pub fn any_record(rng: &mut Prng, count: usize) -> Vec<u8> {
    if count == 0 {
        return Vec::new();
    }
    if rng.percent(25) {
        let length = any_count(rng);
        return numbers(rng, length, count);
    }
    let mut order: Vec<u8> = (0..count).map(|m| m as u8).collect();
    for i in (1..count).rev() {
        order.swap(i, rng.below(i as u64 + 1) as usize);
    }
    let part = rng.below(count as u64 + 1) as usize;
    order.truncate(rng.pick(&[count, part]));
    order
}

/// A site's record as bytes: its count, its numbers, and what stands in the places that hold nothing.
pub fn site_bytes(rng: &mut Prng, record: &[u8]) -> [u8; RECORD] {
    let mut bytes = [rng.pick(&[0, 255, 64]); RECORD];
    bytes[..COUNT].copy_from_slice(&(record.len() as u16).to_be_bytes());
    bytes[COUNT..][..record.len()].copy_from_slice(record);
    bytes
}

/// A table's bytes with a fault: too many rows, a row not whole, or a field that may be out of range.
pub fn damage_rows(rng: &mut Prng, bytes: &mut Vec<u8>) {
    let length = bytes.len();
    match rng.below(4) {
        0 => bytes.resize((POSTINGS + 1) * ROW, 0),
        1 => bytes.resize(length + rng.within(1, 7) as usize, 0),
        2 => bytes.truncate(rng.below(length as u64 + 1) as usize),
        _ if length > 0 => {
            let at = ROW * rng.below((length / ROW) as u64) as usize;
            bytes[at..at + ROW].copy_from_slice(&row(&odd_posting(rng)));
        }
        _ => bytes.push(0),
    }
}

/// A record with a fault: too long, or a number past the table's. A full table has every number that a byte can be.
pub fn damage_record(rng: &mut Prng, record: &mut Vec<u8>, count: usize) {
    if record.is_empty() || count == POSTINGS || rng.percent(30) {
        record.resize(POSTINGS + rng.within(1, 3) as usize, 0);
        return;
    }
    let at = rng.below(record.len() as u64) as usize;
    let last = POSTINGS as u64 - 1;
    let past = rng.within(count as u64, last);
    record[at] = rng.pick(&[count as u64, past, last]) as u8;
}

/// Sites' bytes with a fault: eight sites, a record not whole, or a count past the most there may be.
pub fn damage_sites(rng: &mut Prng, bytes: &mut Vec<u8>) {
    let length = bytes.len();
    match rng.below(4) {
        0 => bytes.resize((SITES + 1) * RECORD, 0),
        1 => bytes.resize(length + rng.within(1, 64) as usize, 0),
        2 => bytes.truncate(rng.below(length as u64 + 1) as usize),
        _ if length > 0 => {
            let at = RECORD * rng.below((length / RECORD) as u64) as usize;
            let count: u16 = rng.pick(&[257, 258, 511, 512, 0x8000, u16::MAX]);
            bytes[at..at + COUNT].copy_from_slice(&count.to_be_bytes());
        }
        _ => bytes.push(0),
    }
}

/// A slice with something in it, mostly as long as is asked, else a little shorter or longer.
pub fn lent(rng: &mut Prng, length: usize) -> Vec<i64> {
    let near = (length + 4).saturating_sub(rng.below(8) as usize);
    let length = rng.pick(&[length, length, length, length + 1, near, length / 2]);
    (0..length).map(|_| rng.word() as i64).collect()
}
