// Holds: the size of a call, and the effect of a posting on an account's four numbers, compared.
// Rests on: proved, inputs, tally, the model.

use crate::inputs::{is_sound, odd_posting, sound_posting};
use crate::proved::{self, DONE, NO_SIZE, REFUSED};
use crate::tally::Tally;
use model::posting::{CALL, CALLED, POSITION, RATE_OF};
use model::prng::Prng;
use model::{effect, nets_house, Posting, ACCOUNTS, FIGURES};

/// How large position, rate, called and settled may be, so that one posting more overflows none.
const ROOM: [u64; 4] = [
    200_000_000_000_000,
    10_000,
    4_000_000_000_000_000_000,
    4_000_000_000_000_000_000,
];

/// What the model's CALL adds; nothing where the product is no i64 either way round.
fn model_size(position: i64, rate: i64) -> u64 {
    let product = u128::from(position.unsigned_abs()) * u128::from(rate.unsigned_abs());
    if product >= 1 << 63 {
        return NO_SIZE;
    }
    let mut figures = [0; FIGURES];
    figures[POSITION] = position;
    figures[RATE_OF] = rate;
    let call = Posting {
        kind: CALL,
        ..Posting::default()
    };
    effect(&call, &mut figures);
    figures[CALLED] as u64
}

fn same_size(tally: &mut Tally, position: i64, rate: i64) {
    let model = model_size(position, rate);
    let proved = proved::size_of_call(position, rate);
    tally.same(model != NO_SIZE, proved, model, || {
        format!("{position} {rate}")
    });
}

/// Positions around zero, around multiples of 10,000 and around the largest that a rate allows.
fn near_multiples(tally: &mut Tally) {
    let rates = [
        0,
        1,
        2,
        3,
        250,
        2_500,
        5_000,
        9_999,
        10_000,
        10_001,
        -1,
        -250,
        -10_000,
        i64::MAX,
        i64::MIN,
    ];
    for rate in rates {
        for near in -300..=300 {
            same_size(tally, near, rate);
            same_size(tally, 10_000 * (near / 7) + near % 7, rate);
            same_size(tally, 1_000_000_000 * near, rate);
            let largest = i64::MAX / rate.unsigned_abs().clamp(1, 1 << 62) as i64;
            same_size(tally, largest.saturating_add(near), rate);
            same_size(tally, (-largest).saturating_sub(near), rate);
        }
    }
}

/// The largest power of two of which 10,000 times is an i64.
const LARGEST_POWER: u32 = 49;

/// Products at 10,000 times each power of two and around it. One power less one has every smaller power in it.
fn near_powers(tally: &mut Tally) {
    for k in 0..=LARGEST_POWER {
        for near in -300..=300 {
            same_size(tally, (10_000 << k) + near, 1);
            same_size(tally, (1 << k) + near, 10_000);
            same_size(tally, 1, (10_000 << k) + near);
        }
    }
}

/// Factors at powers of two and around them, whose product has about as many bits as the largest number.
fn near_largest(tally: &mut Tally) {
    for (a, bits) in (0..64).flat_map(|a| (61..=66).map(move |bits| (a, bits))) {
        let b = u32::saturating_sub(bits, a).min(63);
        for (x, y) in (-2..=2).flat_map(|x| (-2..=2).map(move |y| (x, y))) {
            let [p, q] = [(a, x), (b, y)].map(|(k, near)| (1i64 << k).wrapping_add(near));
            same_size(tally, p, q);
            same_size(tally, p, q.wrapping_neg());
        }
    }
}

/// Positions and rates of every length.
fn any_length(tally: &mut Tally) {
    let mut rng = Prng::new(5);
    for _ in 0..20_000 {
        let position = rng.word() as i64 >> rng.below(64);
        let [usual, any] = [rng.below(10_001) as i64, rng.word() as i64 >> rng.below(64)];
        let rate = rng.pick(&[usual, any]);
        same_size(tally, position, rate);
    }
}

pub fn calls(tally: &mut Tally) {
    near_multiples(tally);
    near_powers(tally);
    near_largest(tally);
    any_length(tally);
}

/// One of an account's four numbers, mostly small, else around its limit or anything.
fn figure(rng: &mut Prng, limit: u64) -> i64 {
    let limit = limit as i64;
    let near = rng.below(7) as i64 - 3;
    let inside = rng.below(limit as u64 + 1) as i64;
    let small = rng.below(40_001).min(limit as u64) as i64;
    let whole = small / 10_000 * 10_000;
    let any = rng.word() as i64;
    let size = match rng.below(100) {
        0..=1 => limit + near,
        2 => rng.pick(&[i64::MAX, i64::MIN, any]),
        3..=30 => inside,
        31..=50 => whole,
        51..=70 => near,
        _ => small,
    };
    if rng.percent(50) {
        size.wrapping_neg()
    } else {
        size
    }
}

fn has_room(figures: &[i64]) -> bool {
    let mut pairs = figures.iter().zip(ROOM);
    pairs.all(|(figure, limit)| figure.unsigned_abs() <= limit)
}

/// The answer, and what the model makes of the slice's first four numbers as those of the account.
fn model_effect(p: &Posting, account: u8, figures: &[i64]) -> (u8, Vec<i64>) {
    let mut wanted = figures.to_vec();
    if figures.len() < 4 || !is_sound(p) || !has_room(&figures[..4]) {
        return (REFUSED, wanted);
    }
    let account = usize::from(account);
    if account < ACCOUNTS {
        let mut all = [0; FIGURES];
        let place = 4 * account..4 * account + 4;
        all[place.clone()].copy_from_slice(&figures[..4]);
        effect(p, &mut all);
        wanted[..4].copy_from_slice(&all[place]);
    }
    (DONE, wanted)
}

/// A posting's effect on figures given, by both.
fn same_effect(tally: &mut Tally, p: &Posting, account: u8, given: Vec<i64>) {
    let mut figures = given.clone();
    let wanted = model_effect(p, account, &figures);
    let answer = proved::effect(p, account, &mut figures);
    tally.same(wanted.0 == DONE, (answer, figures), wanted, || {
        format!("{p:?} {account} {given:?}")
    });
}

/// CALLs of positions at powers of two and around them, at the whole rate; some are past the limit of a position.
fn calls_near_powers(tally: &mut Tally) {
    let call = Posting {
        kind: CALL,
        ..Posting::default()
    };
    for k in 0..=LARGEST_POWER {
        for near in -2..=2 {
            same_effect(tally, &call, 0, vec![(1 << k) + near, 10_000, 0, 0]);
        }
    }
}

pub fn effects(tally: &mut Tally) {
    calls_near_powers(tally);
    let mut rng = Prng::new(6);
    for _ in 0..150_000 {
        let p = if rng.percent(15) {
            odd_posting(&mut rng)
        } else {
            sound_posting(&mut rng, 16)
        };
        let any = rng.below(18) as u8;
        let touched = if nets_house(&p) { any } else { p.a };
        let account = rng.pick(&[touched, touched, p.b, any, 255]);
        let length = rng.pick(&[4, 4, 4, 4, 5, 9, 3, 0]);
        let figures = (0..length).map(|at| figure(&mut rng, ROOM[at % 4]));
        let given = figures.collect();
        same_effect(tally, &p, account, given);
    }
}
