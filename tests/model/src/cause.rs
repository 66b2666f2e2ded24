// Holds: the causes of refusal 6, one for each part of its list in document 01.
// Rests on: nothing.

/// In the order of the list.
#[derive(Clone, Copy, Debug, PartialEq, Eq, PartialOrd, Ord, Hash)]
pub enum Cause {
    /// n, f or the matrix is as in 2 to 5.
    Start,
    /// An owner is no site.
    Owner,
    /// Posting fields lie outside their row of the table.
    Fields,
    /// A THIRD is in flight to a site that is not its owner.
    ThirdElsewhere,
    /// There are more than 256 postings.
    TooMany,
    /// A set or list names a posting not offered.
    NotOffered,
    /// A set or list names a site of n or more.
    NoSuchSite,
    /// A log or record names a posting twice.
    Twice,
    /// A log place lies past the log.
    PastLog,
    /// A posting in the pool or the log is not finished by its owner.
    NotFinished,
    /// A posting is in the pool and in the log.
    PoolAndLog,
}

pub const CAUSES: [Cause; 11] = [
    Cause::Start,
    Cause::Owner,
    Cause::Fields,
    Cause::ThirdElsewhere,
    Cause::TooMany,
    Cause::NotOffered,
    Cause::NoSuchSite,
    Cause::Twice,
    Cause::PastLog,
    Cause::NotFinished,
    Cause::PoolAndLog,
];
