// Holds: the seeds of the random run files, and the way through all files of one sort and seed.
// Rests on: the files of tests/programs; the model's random numbers.

use model::prng::Prng;
use programs::files::{numbers, Sort};

/// Each seed makes more than 5,000 files at random, and some 1,500 that are the same for every seed.
pub const SEEDS: [u64; 5] = [1, 2, 3, 4, 5];

/// Hands over each file with its generator of numbers, from which the comparison may go on drawing. If that comes to a
/// difference, the test fails and names the file.
pub fn each_file(
    sort: &Sort,
    seed: u64,
    mut compare: impl FnMut(&[u8], &mut Prng) -> Result<(), String>,
) {
    for k in 0..sort.count {
        let mut rng = numbers(seed, sort, k);
        let file = sort.file(&mut rng, k);
        if let Err(cause) = compare(&file, &mut rng) {
            panic!("{}, file {k} of seed {seed}: {cause}", sort.name);
        }
    }
}
