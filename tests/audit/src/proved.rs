// Holds: the audit's functions on what is handed over, and its whole answer.
// Rests on: answer, handed, library.

use crate::answer::{Answer, FILLED, NO_ROOM};
use crate::handed::{Handed, Lent};
use crate::library::{self, Fields};

fn fields(handed: &Handed) -> Fields<'_> {
    Fields {
        kinds: &handed.kinds,
        firsts: &handed.firsts,
        seconds: &handed.seconds,
        amounts: &handed.amounts,
    }
}

pub fn audit_records(handed: &Handed, lent: &mut Lent, out: &mut [u64]) -> u64 {
    let records = (&handed.lines[..], &handed.ends[..]);
    let room = (
        &mut lent.marks[..],
        &mut lent.places[..],
        &mut lent.ahead[..],
    );
    library::audit_records(handed.matrix, fields(handed), records, room, out)
}

/// The figures of the lines of `handed` as one record.
pub fn audit_figures(handed: &Handed, out: &mut [i64]) -> u8 {
    library::audit_figures(fields(handed), &handed.lines, out)
}

/// The whole answer, with slices lent that may be used again.
pub fn audited_with(handed: &Handed, lent: &mut Lent) -> Answer {
    let mut filled = [0xA5; FILLED];
    let code = audit_records(handed, lent, &mut filled);
    assert_ne!(code, NO_ROOM, "there is room for the answer");
    Answer::of(code, &filled)
}

/// The whole answer.
pub fn audited(handed: &Handed) -> Answer {
    audited_with(handed, &mut Lent::for_numbers(handed.numbers()))
}
