// Holds: the audit of records that are handed over: what is handed over and lent, the answer, and the way to it.
// Rests on: its parts judge, reading and pair.

mod judge;
mod pair;
mod reading;

pub(crate) use judge::{in_row, matrix_ok, FIXED_PAIRS};
pub use pair::pairs_agree;

/// How many numbers an answer fills in, and the answer where there is no room for them.
pub const FILLED: usize = 8;
pub const NO_ROOM: u64 = u64::MAX;

const KINDS: usize = 4;
const NET: u8 = 3;
const EVERY_ACCOUNT: u8 = 255;

/// The posting with number x has its fields at place x. Site p's record ends at `ends[p]`, where that of the next begins.
#[derive(Clone, Copy)]
pub struct Handed<'a> {
    pub matrix: u16,
    pub kinds: &'a [u8],
    pub firsts: &'a [u8],
    pub seconds: &'a [u8],
    pub amounts: &'a [u32],
    pub lines: &'a [u16],
    pub ends: &'a [usize],
}

/// Slices that hold anything before and after.
pub struct Lent<'a> {
    pub marks: &'a mut [u8],
    pub places: &'a mut [u32],
    pub ahead: &'a mut [u32],
}

/// A code, and what it names: site, line, posting, line above; first, second, here and there of a pair.
#[derive(Clone, Copy, Default)]
struct Answer {
    code: u64,
    named: [u64; FILLED],
}

/// Whether a posting nets every account.
pub(crate) fn nets_all(kind: u8, a: u8, b: u8) -> bool {
    kind == NET && a == EVERY_ACCOUNT && b == EVERY_ACCOUNT
}

impl<'a> Handed<'a> {
    /// The records one after another; the ends rise to the last line.
    fn records(&self) -> impl Iterator<Item = &'a [u16]> {
        let (lines, ends) = (self.lines, self.ends);
        let mut from = 0;
        ends.iter().map(move |&to| {
            let record = &lines[from..to];
            from = to;
            record
        })
    }

    /// Whether x and y, which have postings, conflict.
    fn conflict(&self, x: usize, y: usize) -> bool {
        let [i, j] = [x, y].map(|z| self.kinds[z]);
        if x == y || self.matrix >> (KINDS as u8 * i + j) & 1 == 0 {
            return false;
        }
        let [(a, b), (c, d)] = [x, y].map(|z| (self.firsts[z], self.seconds[z]));
        let named = a == c || a == d || b == c || b == d;
        named || nets_all(i, a, b) || nets_all(j, c, d)
    }

    fn audit(&self, lent: &mut Lent) -> Answer {
        if let Err(refused) = self.judge(lent) {
            return refused;
        }
        match self.departs(lent.places, lent.ahead) {
            Some((site, line)) => self.shown(site, line, lent.marks),
            None => Answer::default(),
        }
    }
}

/// Fills in the answer's eight numbers and hands its code back: 0 the records agree, 1 to 9 a refusal, 10 crossed,
/// 11 missing, 12 apart.
pub fn audit_records(handed: &Handed, lent: &mut Lent, out: &mut [u64]) -> u64 {
    let Some(filled) = out.first_chunk_mut() else {
        return NO_ROOM;
    };
    let answer = handed.audit(lent);
    *filled = answer.named;
    answer.code
}
