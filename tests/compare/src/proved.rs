// Holds: the functions of the static library as safe functions over numbers and slices.
// Rests on: the static library of the proved crate exports, whose contracts its source states.

/// The answers of the functions that can refuse. Refused is none of document 01's numbers.
pub const DONE: u8 = 0;
pub const REFUSED: u8 = 255;
/// What stands in place of a size.
pub const NO_SIZE: u64 = u64::MAX;
/// Bytes of a row, and of a site's record: its count in so many, and a byte for each number.
pub const ROW: usize = 8;
pub const COUNT: usize = 2;
pub const RECORD: usize = COUNT + POSTINGS;

mod library {
    extern "C" {
        pub fn board_fields_ok(kind: u8, a: u8, b: u8, amount: u32) -> bool;
        pub fn board_symmetric(matrix: u16) -> bool;
        pub fn board_has_fixed_pairs(matrix: u16) -> bool;
        pub fn board_conflicting(
            matrix: u16,
            m: usize,
            i: u8,
            a: u8,
            b: u8,
            x: usize,
            j: u8,
            c: u8,
            d: u8,
        ) -> bool;
        pub fn board_size_of_call(position: i64, rate: i64) -> u64;
        pub fn board_effect(
            kind: u8,
            a: u8,
            b: u8,
            amount: u32,
            account: u8,
            figures: *mut i64,
            figures_len: usize,
        ) -> u8;
        pub fn board_conflict_set(
            matrix: u16,
            rows: *const u8,
            rows_len: usize,
            m: usize,
            out: *mut u64,
            out_len: usize,
        ) -> u8;
        pub fn board_books(
            rows: *const u8,
            rows_len: usize,
            delivered: *const u8,
            delivered_len: usize,
            out: *mut i64,
            out_len: usize,
        ) -> u8;
        pub fn board_books_all(
            rows: *const u8,
            rows_len: usize,
            delivered: *const u8,
            delivered_len: usize,
            out: *mut i64,
            out_len: usize,
        ) -> u8;
    }
}

use model::{Posting, POSTINGS};

// Every function of the library takes any numbers, and of a slice its pointer and its length, which it
// neither keeps nor passes: so each call below is sound.

pub fn fields_ok(kind: u8, a: u8, b: u8, amount: u32) -> bool {
    unsafe { library::board_fields_ok(kind, a, b, amount) }
}

pub fn symmetric(matrix: u16) -> bool {
    unsafe { library::board_symmetric(matrix) }
}

pub fn has_fixed_pairs(matrix: u16) -> bool {
    unsafe { library::board_has_fixed_pairs(matrix) }
}

/// Whether p with number m and q with number x conflict.
pub fn conflicting(matrix: u16, m: usize, p: &Posting, x: usize, q: &Posting) -> bool {
    unsafe { library::board_conflicting(matrix, m, p.kind, p.a, p.b, x, q.kind, q.a, q.b) }
}

pub fn size_of_call(position: i64, rate: i64) -> u64 {
    unsafe { library::board_size_of_call(position, rate) }
}

pub fn effect(p: &Posting, account: u8, figures: &mut [i64]) -> u8 {
    let (start, len) = (figures.as_mut_ptr(), figures.len());
    unsafe { library::board_effect(p.kind, p.a, p.b, p.amount, account, start, len) }
}

pub fn conflict_set(matrix: u16, rows: &[u8], m: usize, out: &mut [u64]) -> u8 {
    let (start, len) = (out.as_mut_ptr(), out.len());
    unsafe { library::board_conflict_set(matrix, rows.as_ptr(), rows.len(), m, start, len) }
}

pub fn books(rows: &[u8], delivered: &[u8], out: &mut [i64]) -> u8 {
    unsafe {
        library::board_books(
            rows.as_ptr(),
            rows.len(),
            delivered.as_ptr(),
            delivered.len(),
            out.as_mut_ptr(),
            out.len(),
        )
    }
}

pub fn books_all(rows: &[u8], delivered: &[u8], out: &mut [i64]) -> u8 {
    unsafe {
        library::board_books_all(
            rows.as_ptr(),
            rows.len(),
            delivered.as_ptr(),
            delivered.len(),
            out.as_mut_ptr(),
            out.len(),
        )
    }
}
