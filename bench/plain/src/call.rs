// Holds: events as values, the numbers of a start, and why either is not taken.
// Rests on: nothing.

/// The number of sends after which a step is cut; none if it is whole.
pub type Cut = Option<u8>;

#[derive(Clone, Copy)]
pub struct Setup {
    pub n: u8,
    pub f: u8,
    pub matrix: u16,
}

#[derive(Clone, Copy)]
pub struct Fields {
    pub kind: u8,
    pub a: u8,
    pub b: u8,
    pub amount: u32,
}

#[derive(Clone, Copy)]
pub struct Message {
    pub form: usize,
    pub posting: usize,
    pub from: usize,
    pub to: usize,
}

#[derive(Clone, Copy)]
pub enum Call {
    Offer {
        site: usize,
        fields: Fields,
        cut: Cut,
    },
    Receive {
        message: Message,
        cut: Cut,
    },
    Order {
        posting: usize,
    },
    Read {
        site: usize,
        cut: Cut,
    },
    Crash {
        site: usize,
    },
}

/// The causes that a run file or a look-up on its board can meet, with their numbers.
#[derive(Clone, Copy)]
pub enum Refusal {
    Malformed = 1,
    SiteCount = 2,
    CrashCount = 3,
    NotSymmetric = 4,
    LacksFixedPair = 5,
    NoSuchSite = 7,
    SiteDown = 8,
    BadField = 9,
    BoardFull = 10,
    NotInFlight = 11,
    NotInPool = 12,
    LogRead = 13,
    TooManyCrashes = 14,
    CutTooLong = 15,
    LookUp = 18,
}

pub type Answer = Result<(), Refusal>;
