// Holds: what the size of one call costs: with the division of before document 02's W4, by the twin, and proved.
// Rests on: main, clock; the model's random numbers, the plain twin, and the static library that programs links.

use crate::clock::{in_turns, Timed};
use model::prng::Prng;
use std::hint::black_box;

const SEED: u64 = 1;

/// How many calls a sample goes through, so that no processor learns them by heart.
const CALLS: usize = 4_096;

/// Up to where the positions of a row go; the last is the largest that a board's promises allow.
const POSITIONS: [u64; 5] = [100, 10_000, 1_000_000, 1_000_000_000, 200_000_000_000_000];

const RATES: u64 = 10_001;

type Sizes = fn(i64, i64) -> u64;

mod library {
    extern "C" {
        pub fn board_size_of_call(position: i64, rate: i64) -> u64;
    }
}

fn divided(position: i64, rate: i64) -> u64 {
    if position <= 0 {
        return 0;
    }
    (position.unsigned_abs() * rate.unsigned_abs()).div_ceil(10_000)
}

fn twin(position: i64, rate: i64) -> u64 {
    plain::called(position, rate) as u64
}

fn proved(position: i64, rate: i64) -> u64 {
    // Sound: the function takes two numbers, and any.
    unsafe { library::board_size_of_call(position, rate) }
}

const SIDES: [(&str, Sizes); 3] = [("divided", divided), ("twin", twin), ("proved", proved)];

/// All sizes of the calls, worked one after another.
fn sizes<'a>(side: Sizes, calls: &'a [(i64, i64)]) -> Timed<'a> {
    let work = move || {
        for &(position, rate) in calls {
            black_box(side(black_box(position), black_box(rate)));
        }
    };
    (calls.len() as u64, Box::new(work))
}

/// One line for each limit of positions: ns a call on each side, and the proved side against the twin.
pub fn table() {
    println!("Calls: what a CALL adds at a position above zero, any rate. ns a call.\n");
    print!("  position up to");
    SIDES.iter().for_each(|(name, _)| print!("  {name:>10}"));
    println!("  {:>12}    from      to", "proved/twin");
    let mut rng = Prng::new(SEED);
    for limit in POSITIONS {
        let pair = |_| (1 + rng.below(limit) as i64, rng.below(RATES) as i64);
        let calls: Vec<(i64, i64)> = (0..CALLS).map(pair).collect();
        for &(position, rate) in &calls {
            let all = SIDES.map(|(_, side)| side(position, rate));
            assert_eq!(all, [all[0]; 3], "position {position}, rate {rate}");
        }
        let speeds = in_turns(&mut SIDES.map(|(_, side)| sizes(side, &calls)));
        print!("{limit:16}");
        speeds
            .iter()
            .for_each(|speed| print!("  {:10.2}", 1e9 / speed.best()));
        crate::ratio(&speeds[2], &speeds[1]);
        println!();
    }
    println!();
}
