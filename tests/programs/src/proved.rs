// Holds: the proved programs as safe functions over slices.
// Rests on: the static library of the proved crate exports, whose contracts its source states.

use crate::programs::Programs;

pub const PROVED: Programs = Programs {
    run_file,
    run_drain,
    run_by_value,
    run_events,
    call_changed,
    run_lookup,
    lookup_changed,
};

mod library {
    extern "C" {
        pub fn board_run_file(input: *const u8, length: usize, out: *mut u8, room: usize) -> u64;
        pub fn board_run_drain(
            input: *const u8,
            length: usize,
            limit: u64,
            out: *mut i64,
            room: usize,
        ) -> u64;
        pub fn board_run_by_value(
            input: *const u8,
            length: usize,
            limit: u64,
            out: *mut i64,
            room: usize,
        ) -> u64;
        pub fn board_run_events(
            input: *const u8,
            length: usize,
            numbers: *mut u8,
            room: usize,
        ) -> u64;
        pub fn board_call_changed(
            input: *const u8,
            length: usize,
            place: u64,
            value: u64,
            event: *const u8,
            event_length: usize,
            limit: u64,
            figures: *mut i64,
            figures_room: usize,
            board: *mut u64,
            board_room: usize,
        ) -> u64;
        pub fn board_run_lookup(
            input: *const u8,
            length: usize,
            pairs: *const u8,
            pairs_length: usize,
            out: *mut i64,
            room: usize,
        ) -> u64;
        pub fn board_lookup_changed(
            input: *const u8,
            length: usize,
            place: u64,
            value: u64,
            pairs: *const u8,
            pairs_length: usize,
            out: *mut i64,
            room: usize,
        ) -> u64;
    }
}

// These functions take any bytes and numbers, and of a slice its pointer and its length, which they neither keep
// nor pass: so each call below is sound.

fn run_file(input: &[u8], out: &mut [u8]) -> u64 {
    let (start, room) = (out.as_mut_ptr(), out.len());
    unsafe { library::board_run_file(input.as_ptr(), input.len(), start, room) }
}

fn run_drain(input: &[u8], limit: u64, out: &mut [i64]) -> u64 {
    let (start, room) = (out.as_mut_ptr(), out.len());
    unsafe { library::board_run_drain(input.as_ptr(), input.len(), limit, start, room) }
}

fn run_by_value(input: &[u8], limit: u64, out: &mut [i64]) -> u64 {
    let (start, room) = (out.as_mut_ptr(), out.len());
    unsafe { library::board_run_by_value(input.as_ptr(), input.len(), limit, start, room) }
}

fn run_events(input: &[u8], numbers: &mut [u8]) -> u64 {
    let (start, room) = (numbers.as_mut_ptr(), numbers.len());
    unsafe { library::board_run_events(input.as_ptr(), input.len(), start, room) }
}

fn call_changed(
    input: &[u8],
    place: u64,
    value: u64,
    event: &[u8],
    limit: u64,
    figures: &mut [i64],
    board: &mut [u64],
) -> u64 {
    unsafe {
        library::board_call_changed(
            input.as_ptr(),
            input.len(),
            place,
            value,
            event.as_ptr(),
            event.len(),
            limit,
            figures.as_mut_ptr(),
            figures.len(),
            board.as_mut_ptr(),
            board.len(),
        )
    }
}

fn run_lookup(input: &[u8], pairs: &[u8], out: &mut [i64]) -> u64 {
    unsafe {
        library::board_run_lookup(
            input.as_ptr(),
            input.len(),
            pairs.as_ptr(),
            pairs.len(),
            out.as_mut_ptr(),
            out.len(),
        )
    }
}

fn lookup_changed(input: &[u8], place: u64, value: u64, pairs: &[u8], out: &mut [i64]) -> u64 {
    unsafe {
        library::board_lookup_changed(
            input.as_ptr(),
            input.len(),
            place,
            value,
            pairs.as_ptr(),
            pairs.len(),
            out.as_mut_ptr(),
            out.len(),
        )
    }
}
