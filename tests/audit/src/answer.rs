// Holds: what an audit answers, by its numbers.
// Rests on: nothing.

/// How many numbers an answer fills in.
pub const FILLED: usize = 8;

/// The codes.
pub const AGREED: u64 = 0;
pub const BAD_SITES: u64 = 1;
pub const BAD_MATRIX: u64 = 2;
pub const BAD_SIZES: u64 = 3;
pub const BAD_FIELDS: u64 = 5;
pub const UNKNOWN: u64 = 7;
pub const TWICE: u64 = 9;
pub const CROSSED: u64 = 10;
pub const MISSING: u64 = 11;
pub const APART: u64 = 12;
/// The slice for the answer is too short.
pub const NO_ROOM: u64 = u64::MAX;

/// What has no meaning for a code is 0.
#[derive(Clone, Copy, Debug, Default, PartialEq, Eq)]
pub struct Answer {
    pub code: u64,
    pub site: u64,
    pub line: u64,
    pub posting: u64,
    pub above: u64,
    pub first: u64,
    pub second: u64,
    pub here: u64,
    pub there: u64,
}

impl Answer {
    pub fn of(code: u64, filled: &[u64; FILLED]) -> Answer {
        let [site, line, posting, above, first, second, here, there] = *filled;
        Answer {
            code,
            site,
            line,
            posting,
            above,
            first,
            second,
            here,
            there,
        }
    }

    /// One without a place.
    pub fn only(code: u64) -> Answer {
        Answer {
            code,
            ..Answer::default()
        }
    }

    /// One that names a line of a site.
    pub fn at(code: u64, site: usize, line: usize, posting: usize) -> Answer {
        Answer {
            code,
            site: site as u64,
            line: line as u64,
            posting: posting as u64,
            ..Answer::default()
        }
    }

    /// The numbers that are filled in.
    pub fn filled(&self) -> [u64; FILLED] {
        [
            self.site,
            self.line,
            self.posting,
            self.above,
            self.first,
            self.second,
            self.here,
            self.there,
        ]
    }

    /// Whether it names a pair.
    pub fn names_pair(&self) -> bool {
        (CROSSED..=APART).contains(&self.code)
    }
}
