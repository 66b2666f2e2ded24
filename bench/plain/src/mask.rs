// Holds: masks of sites, a bit each in a byte.
// Rests on: nothing.

pub fn only(site: usize) -> u8 {
    1 << site
}

pub fn has(mask: u8, site: usize) -> bool {
    mask >> site & 1 == 1
}

/// The sites below n, which is at most 7.
pub fn below(n: u8) -> u8 {
    (1 << n) - 1
}

/// The lowest j sites of a mask.
pub fn lowest(mask: u8, j: u8) -> u8 {
    let mut left = mask;
    for _ in 0..j.min(8) {
        left &= left.wrapping_sub(1);
    }
    mask & !left
}
