// Holds: the audit's functions of the static library as safe functions over slices.
// Rests on: the static library of the proved crate exports, whose contracts its source states.

mod declared {
    extern "C" {
        pub fn board_audit_records(
            matrix: u16,
            kinds: *const u8,
            kinds_len: usize,
            firsts: *const u8,
            firsts_len: usize,
            seconds: *const u8,
            seconds_len: usize,
            amounts: *const u32,
            amounts_len: usize,
            lines: *const u16,
            lines_len: usize,
            ends: *const usize,
            ends_len: usize,
            marks: *mut u8,
            marks_len: usize,
            places: *mut u32,
            places_len: usize,
            ahead: *mut u32,
            ahead_len: usize,
            out: *mut u64,
            out_len: usize,
        ) -> u64;
        pub fn board_audit_figures(
            kinds: *const u8,
            kinds_len: usize,
            firsts: *const u8,
            firsts_len: usize,
            seconds: *const u8,
            seconds_len: usize,
            amounts: *const u32,
            amounts_len: usize,
            lines: *const u16,
            lines_len: usize,
            out: *mut i64,
            out_len: usize,
        ) -> u8;
    }
}

/// A posting's fields stand at its number.
#[derive(Clone, Copy)]
pub struct Fields<'a> {
    pub kinds: &'a [u8],
    pub firsts: &'a [u8],
    pub seconds: &'a [u8],
    pub amounts: &'a [u32],
}

// Both functions take any numbers, and of a slice its pointer and its length, which they neither keep nor pass:
// so each call below is sound.

pub fn audit_records(
    matrix: u16,
    fields: Fields,
    (lines, ends): (&[u16], &[usize]),
    (marks, places, ahead): (&mut [u8], &mut [u32], &mut [u32]),
    out: &mut [u64],
) -> u64 {
    unsafe {
        declared::board_audit_records(
            matrix,
            fields.kinds.as_ptr(),
            fields.kinds.len(),
            fields.firsts.as_ptr(),
            fields.firsts.len(),
            fields.seconds.as_ptr(),
            fields.seconds.len(),
            fields.amounts.as_ptr(),
            fields.amounts.len(),
            lines.as_ptr(),
            lines.len(),
            ends.as_ptr(),
            ends.len(),
            marks.as_mut_ptr(),
            marks.len(),
            places.as_mut_ptr(),
            places.len(),
            ahead.as_mut_ptr(),
            ahead.len(),
            out.as_mut_ptr(),
            out.len(),
        )
    }
}

pub fn audit_figures(fields: Fields, lines: &[u16], out: &mut [i64]) -> u8 {
    unsafe {
        declared::board_audit_figures(
            fields.kinds.as_ptr(),
            fields.kinds.len(),
            fields.firsts.as_ptr(),
            fields.firsts.len(),
            fields.seconds.as_ptr(),
            fields.seconds.len(),
            fields.amounts.as_ptr(),
            fields.amounts.len(),
            lines.as_ptr(),
            lines.len(),
            out.as_mut_ptr(),
            out.len(),
        )
    }
}
