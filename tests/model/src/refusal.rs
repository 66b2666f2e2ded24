// Holds: the seventeen causes why an event, the books or a look-up is not taken, with their numbers: 1 to 16, and 18.
// Rests on: nothing.

#[derive(Clone, Copy, Debug, PartialEq, Eq, PartialOrd, Ord, Hash)]
#[repr(u8)]
pub enum Refusal {
    Malformed = 1,
    SiteCount = 2,
    CrashCount = 3,
    NotSymmetric = 4,
    LacksFixedPair = 5,
    Unsound = 6,
    NoSuchSite = 7,
    SiteDown = 8,
    BadField = 9,
    BoardFull = 10,
    NotInFlight = 11,
    NotInPool = 12,
    LogRead = 13,
    TooManyCrashes = 14,
    CutTooLong = 15,
    SliceShort = 16,
    LookUp = 18,
}

impl Refusal {
    pub fn number(self) -> u8 {
        self as u8
    }
}
