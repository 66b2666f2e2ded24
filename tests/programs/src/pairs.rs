// Holds: what is looked up, made by seed: pairs of site and account, and the length of the lent slice.
// Rests on: the model's look-ups and its generator of numbers.

use model::lookup::{LINE, PAIRS};
use model::prng::Prng;
use model::ACCOUNTS;
use std::ops::Range;

/// A site and an account, as they are handed over.
pub type Pair = [u8; 2];
const SITE: usize = 0;
const ACCOUNT: usize = 1;

/// So many numbers beyond the lines make a slice much longer.
pub const MUCH: usize = 1000;

/// So many bytes are told in a message.
const TOLD: usize = 64;

/// What is handed over.
pub struct Request {
    pub bytes: Vec<u8>,
    /// The length of the lent slice.
    pub room: usize,
}

impl Request {
    /// Without an odd last byte.
    pub fn pairs(&self) -> &[Pair] {
        self.bytes.as_chunks().0
    }

    /// For a message: of many bytes only the first.
    pub fn told(&self) -> String {
        let (count, room) = (self.bytes.len(), self.room);
        let first = &self.bytes[..count.min(TOLD)];
        format!("{count} bytes, a slice of {room} numbers, {first:?}")
    }
}

/// Sites and accounts at the edges and beside them: a name, which byte of a pair it is, and its value with n sites.
pub fn edges(n: u8) -> [(&'static str, usize, u8); 7] {
    [
        ("site n - 1", SITE, n - 1),
        ("site n", SITE, n),
        ("site 7", SITE, 7),
        ("site 255", SITE, 255),
        ("account 15", ACCOUNT, 15),
        ("account 16", ACCOUNT, 16),
        ("account 255", ACCOUNT, 255),
    ]
}

/// Where among so many pairs such a value may stand; some of these are none.
pub fn places(count: usize) -> [(&'static str, Range<usize>); 4] {
    let last = count.saturating_sub(1);
    [
        ("the first pair", 0..count.min(1)),
        ("a middle pair", 1..last),
        ("the last pair", last..count),
        ("a pair behind the 256th", PAIRS..count),
    ]
}

/// A request for a board of n sites, of which many have values that it refuses, too many pairs, or a short slice.
pub fn request(rng: &mut Prng, n: u8) -> Request {
    let count = how_many(rng);
    let mut pairs = any_pairs(rng, n, count);
    for _ in 0..rng.pick(&[0, 0, 0, 0, 1, 1, 2]) {
        put_edge(rng, n, &mut pairs);
    }
    let room = any_room(rng, LINE * count);
    let mut bytes = pairs.into_flattened();
    if rng.percent(25) {
        let any = rng.word() as u8;
        bytes.push(rng.pick(&[0, n, 16, 255, any]));
    }
    Request { bytes, room }
}

/// The fewest pairs and those about the most that may be; a few, any number, or too many, once in a while so many that
/// their count in two bytes would not be too large.
fn how_many(rng: &mut Prng) -> usize {
    let edge = rng.pick(&[0, 1, 2, 255, 256, 257]);
    let few = rng.within(3, 12);
    let any = rng.below(PAIRS as u64 + 1);
    let more = rng.within(PAIRS as u64 + 2, 700);
    let many = (1 << 16) + rng.pick(&[0, 1, PAIRS as u64]);
    let more = if rng.percent(2) { many } else { more };
    rng.pick(&[edge, edge, edge, edge, few, any, any, any, more]) as usize
}

fn any_pair(rng: &mut Prng, sites: &[u8]) -> Pair {
    [rng.pick(sites), rng.below(ACCOUNTS as u64) as u8]
}

/// Pairs of one site, two or all: in any order; by site and account, rising or falling; all equal; or with the second
/// half like the first.
fn any_pairs(rng: &mut Prng, n: u8, count: usize) -> Vec<Pair> {
    let mut sites: Vec<u8> = (0..n).collect();
    let some = rng.pick(&[1, 2, n, n]);
    while sites.len() > some.into() {
        sites.remove(rng.below(sites.len() as u64) as usize);
    }
    let mut pairs: Vec<Pair> = (0..count).map(|_| any_pair(rng, &sites)).collect();
    match rng.below(6) {
        0 => pairs.sort_unstable(),
        1 => pairs.sort_unstable_by(|one, other| other.cmp(one)),
        2 => pairs = vec![any_pair(rng, &sites); count],
        3 => {
            pairs.truncate(count.div_ceil(2));
            pairs.extend_from_within(..count / 2);
        }
        _ => {}
    }
    pairs
}

/// Puts a value of the edges into one of the pairs, if there are any.
fn put_edge(rng: &mut Prng, n: u8, pairs: &mut [Pair]) {
    let (_, byte, value) = rng.pick(&edges(n));
    let places = places(pairs.len()).map(|(_, range)| range);
    let some: Vec<&Range<usize>> = places.iter().filter(|range| !range.is_empty()).collect();
    if !some.is_empty() {
        let range = rng.pick(&some);
        let place = range.start + rng.below(range.len() as u64) as usize;
        pairs[place][byte] = value;
    }
}

/// Exactly what the lines take, most often; more, far more, one less, less, or nothing.
fn any_room(rng: &mut Prng, exact: usize) -> usize {
    let longer = exact + rng.within(1, 40) as usize;
    let far = exact + rng.within(MUCH as u64, 3000) as usize;
    if rng.percent(75) {
        return rng.pick(&[exact, exact, exact, longer, far]);
    }
    let less = rng.below(exact as u64 + 1) as usize;
    let one_less = exact.saturating_sub(1);
    rng.pick(&[one_less, one_less, less, 0])
}
