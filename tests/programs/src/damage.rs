// Holds: run files with values out of their place, one after another or at random, many of them malformed.
// Rests on: the model's generators and its run files.

use model::gen::{legal_matrix, legal_start};
use model::prng::Prng;
use model::runfile::{EVENT, HEADER};
use model::FIXED_PAIRS;

/// Site counts, crash counts and byte values at and beside the edges.
pub const SITE_COUNTS: [u8; 12] = [0, 1, 2, 3, 4, 5, 6, 7, 8, 9, 128, 255];
pub const CRASH_COUNTS: [u8; 9] = [0, 1, 2, 3, 4, 5, 127, 128, 255];
pub const VALUES: [u8; 11] = [0, 1, 2, 3, 4, 5, 6, 127, 128, 254, 255];

/// One event of each code, all accepted on three sites of which one may fail, but for the order.
const EVENTS: [[u8; EVENT]; 5] = [
    [1, 0, 0, 1, 2, 0, 0, 0x03, 0xE8, 255],
    [2, 0, 0, 0, 1, 0, 0, 0, 0, 255],
    [3, 0, 0, 0, 0, 0, 0, 0, 0, 255],
    [4, 1, 0, 0, 0, 0, 0, 0, 0, 255],
    [5, 2, 0, 0, 0, 0, 0, 0, 0, 255],
];
const LENGTH: usize = HEADER + EVENT * EVENTS.len();

pub fn header(n: u8, f: u8, matrix: u16) -> Vec<u8> {
    let [high, low] = matrix.to_be_bytes();
    vec![b'R', b'U', b'N', 0, 1, n, f, high, low]
}

fn small_file() -> Vec<u8> {
    [&header(3, 1, FIXED_PAIRS), EVENTS.as_flattened()].concat()
}

/// Every site count with every crash count, and no events.
pub const STARTS: usize = SITE_COUNTS.len() * CRASH_COUNTS.len();

pub fn start(k: usize) -> Vec<u8> {
    let n = SITE_COUNTS[k / CRASH_COUNTS.len()];
    let f = CRASH_COUNTS[k % CRASH_COUNTS.len()];
    header(n, f, FIXED_PAIRS)
}

/// Each legal matrix as it is, with each of its bits flipped, and without each of the fixed pairs of two kinds.
pub const MATRICES: usize = 32 * CHANGES;
const CHANGES: usize = 1 + 16 + 4;

pub fn matrix(k: usize) -> Vec<u8> {
    let free = [0x0001, 0x0012, 0x2080, 0x0400, 0x8000];
    let fixed = [0x0104, 0x1008, 0x0240, 0x4800];
    let (which, change) = (k / CHANGES, k % CHANGES);
    let chosen = (0..5).filter(|i| which >> i & 1 == 1).map(|i| free[i]);
    let legal = chosen.fold(FIXED_PAIRS, |matrix, pair| matrix | pair);
    let flipped = match change {
        0 => 0,
        1..=16 => 1 << (change - 1),
        _ => fixed[change - 17],
    };
    header(3, 1, legal ^ flipped)
}

/// Each byte of a small file in turn, with each of the values.
pub const BYTES: usize = LENGTH * VALUES.len();

pub fn byte(k: usize) -> Vec<u8> {
    let mut file = small_file();
    file[k / VALUES.len()] = VALUES[k % VALUES.len()];
    file
}

/// A small file of every length from nothing to two events more.
pub const LENGTHS: usize = LENGTH + 2 * EVENT + 1;

pub fn length(k: usize) -> Vec<u8> {
    let mut file = small_file();
    file.extend_from_within(HEADER..HEADER + 2 * EVENT);
    file.truncate(k);
    file
}

/// An accepted start with well-formed events of any values.
pub fn any_fields(rng: &mut Prng) -> Vec<u8> {
    let (n, f, _) = legal_start(rng);
    let mut file = header(n, f, legal_matrix(rng));
    for _ in 0..rng.below(60) {
        let mut event = rng.pick(&EVENTS);
        let used = [0, 9, 5, 2, 2, 2][usize::from(event[0])];
        for byte in &mut event[1..used] {
            let low = rng.below(8) as u8;
            let any = rng.word() as u8;
            *byte = rng.pick(&[*byte, 0, low, low, any]);
        }
        if !matches!(event[0], 3 | 5) {
            let low = rng.below(9) as u8;
            event[9] = rng.pick(&[255, 255, 255, low, 254]);
        }
        file.extend_from_slice(&event);
    }
    file
}

/// Bytes of any values, with or without a sound header, and mostly of whole events.
pub fn any_bytes(rng: &mut Prng) -> Vec<u8> {
    let mut file = header(3, 1, FIXED_PAIRS);
    let whole = EVENT * rng.below(6) as usize;
    let any = rng.below(60) as usize;
    for _ in 0..rng.pick(&[whole, any]) {
        file.push(rng.word() as u8);
    }
    if rng.percent(30) {
        let any = |byte: &mut u8| *byte = rng.word() as u8;
        file.iter_mut().take(HEADER).for_each(any);
    }
    file
}
