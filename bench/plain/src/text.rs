// Holds: what `board` prints, written into a lent slice.
// Rests on: arrays, call, runfile, set.

use crate::arrays::Board;
use crate::call::Refusal;
use crate::runfile::MAX_EVENTS;
use crate::set::{POSTINGS, SITES};

/// No text is longer: a line for each event, for each site and for the log, and the last.
const LONGEST: usize = 13 * MAX_EVENTS + (9 + 4 * POSTINGS) * SITES + (2 + 4 * POSTINGS) + 6;

pub enum Text<'a> {
    Refused(Refusal),
    /// The refusal number of each event, 0 if it was accepted, and the board after them.
    Played(&'a [u8], &'a Board),
}

/// Where a text goes.
trait Sink {
    fn put(&mut self, bytes: &[u8]);
}

/// Counts the bytes.
struct Count(usize);

impl Sink for Count {
    fn put(&mut self, bytes: &[u8]) {
        self.0 += bytes.len();
    }
}

/// Writes the bytes into a slice that has room for them, from a place on.
struct Writer<'a>(&'a mut [u8], usize);

impl Sink for Writer<'_> {
    fn put(&mut self, bytes: &[u8]) {
        let end = self.1 + bytes.len();
        self.0[self.1..end].copy_from_slice(bytes);
        self.1 = end;
    }
}

impl Text<'_> {
    /// The count of bytes written, or none if the slice is shorter than the text; it then stays as it is.
    pub fn write(&self, out: &mut [u8]) -> Option<u64> {
        if out.len() < LONGEST && out.len() < self.length() {
            return None;
        }
        let mut writer = Writer(out, 0);
        self.print(&mut writer);
        Some(writer.1 as u64)
    }

    fn length(&self) -> usize {
        let mut count = Count(0);
        self.print(&mut count);
        count.0
    }

    fn print(&self, sink: &mut impl Sink) {
        match *self {
            Text::Refused(refusal) => {
                sink.put(b"F ");
                number(sink, refusal as usize);
                sink.put(b"\n");
            }
            Text::Played(numbers, board) => {
                events(sink, numbers);
                ending(sink, board);
            }
        }
    }
}

/// The lines E.
fn events(sink: &mut impl Sink, numbers: &[u8]) {
    for (k, &refusal) in numbers.iter().enumerate() {
        sink.put(b"E ");
        number(sink, k + 1);
        if refusal == 0 {
            sink.put(b" ok\n");
        } else {
            sink.put(b" no ");
            number(sink, refusal.into());
            sink.put(b"\n");
        }
    }
}

/// The lines S, L and Q.
fn ending(sink: &mut impl Sink, board: &Board) {
    for site in 0..usize::from(board.setup.n) {
        sink.put(b"S ");
        number(sink, site);
        sink.put(if board.is_up(site) { b" up" } else { b" down" });
        list(sink, board.record(site));
    }
    sink.put(b"L");
    list(sink, board.log());
    sink.put(if board.is_quiet() {
        b"Q yes\n"
    } else {
        b"Q no\n"
    });
}

/// The items, each after a space, and the end of the line.
fn list(sink: &mut impl Sink, items: &[u8]) {
    for &item in items {
        sink.put(b" ");
        number(sink, item.into());
    }
    sink.put(b"\n");
}

/// A number of at most four digits.
fn number(sink: &mut impl Sink, number: usize) {
    for unit in [1000, 100, 10] {
        if number >= unit {
            digit(sink, number / unit);
        }
    }
    digit(sink, number);
}

/// The last digit of a number.
fn digit(sink: &mut impl Sink, number: usize) {
    sink.put(&[b'0' + (number % 10) as u8]);
}
