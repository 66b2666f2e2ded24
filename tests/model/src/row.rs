// Holds: a board read from its row of numbers.
// Rests on: numbers, cause, board, sound, site, flight, posting, set.

use crate::board::Board;
use crate::cause::Cause;
use crate::flight::{Flight, FORMS};
use crate::numbers::*;
use crate::posting::Posting;
use crate::set::{Set, POSTINGS, SITES, WORDS};
use crate::site::{Seconds, Site, Thirds};

/// The board that a row is, each number taken modulo its width; else why the row is no board of the model, which
/// is a cause of refusal 6 too. Slots from n on are no sites and are left blank.
pub fn read(row: &[u64]) -> Result<Board, Cause> {
    let row = Row(row);
    let offered = row.at(OFFERED);
    if offered > POSTINGS as u64 {
        return Err(Cause::TooMany);
    }
    let mut board = Board {
        n: row.byte(N),
        f: row.byte(F),
        matrix: row.at(MATRIX) as u16,
        down: row.byte(DOWN),
        postings: (0..offered as usize).map(|m| row.posting(m)).collect(),
        flight: row.flight(),
        pool: row.set(POOL),
        entries: std::array::from_fn(|m| row.set(entry(m))),
        log: row.list(LOGGED, log(0))?,
        ..Board::blank()
    };
    for s in 0..SITES.min(board.n.into()) {
        board.sites[s] = row.site(s)?;
    }
    for m in 0..POSTINGS {
        row.place_thirds(m, &mut board)?;
    }
    Ok(board)
}

/// The board that a row is if it is sound, else why it is not.
pub fn read_sound(row: &[u64]) -> Result<Board, Cause> {
    let board = read(row)?;
    board.cause().map_or(Ok(board), Err)
}

/// A row whose numbers are taken modulo their widths.
struct Row<'a>(&'a [u64]);

impl Row<'_> {
    fn at(&self, place: usize) -> u64 {
        fitted(place, self.0[place])
    }

    /// The number at a place that is eight bits wide.
    fn byte(&self, place: usize) -> u8 {
        self.at(place) as u8
    }

    /// The set whose first word stands at a place.
    fn set(&self, first: usize) -> Set {
        Set {
            words: std::array::from_fn(|w| self.at(first + w)),
        }
    }

    fn posting(&self, m: usize) -> Posting {
        let [owner, kind, a, b] = std::array::from_fn(|field| self.byte(posting(m, field)));
        Posting {
            owner,
            kind,
            a,
            b,
            amount: self.at(posting(m, AMOUNT)) as u32,
        }
    }

    /// A list longer than a board has postings names one twice, or else one not offered.
    fn list(&self, count: usize, first: usize) -> Result<Vec<u8>, Cause> {
        let count = self.at(count);
        if count > POSTINGS as u64 {
            return Err(Cause::Twice);
        }
        Ok((0..count as usize).map(|k| self.byte(first + k)).collect())
    }

    /// A site without its third rounds.
    fn site(&self, s: usize) -> Result<Site, Cause> {
        let [seen, held, stepped, finished, told] =
            std::array::from_fn(|k| self.set(site(s, WORDS * k)));
        Ok(Site {
            seen,
            held,
            stepped,
            finished,
            told,
            seconds: std::array::from_fn(|m| Seconds {
                heard: self.byte(site(s, HEARD + m)),
                good: self.byte(site(s, HEARD_GOOD + m)),
            }),
            thirds: [Thirds::NONE; POSTINGS],
            place: self.at(site(s, READ)) as usize,
            record: self.list(site(s, DELIVERED), site(s, RECORD))?,
        })
    }

    /// The third round of a posting stands at its owner. One under a number not offered names that posting.
    fn place_thirds(&self, m: usize, board: &mut Board) -> Result<(), Cause> {
        let thirds = Thirds {
            heard: self.byte(third(m, 0)),
            with: self.byte(third(m, 1)),
            union: self.set(third(m, UNION)),
        };
        let Some(posting) = board.postings.get(m) else {
            return match thirds {
                Thirds::NONE => Ok(()),
                _ => Err(Cause::NotOffered),
            };
        };
        let owner = board.sites.get_mut(usize::from(posting.owner));
        owner.ok_or(Cause::Owner)?.thirds[m] = thirds;
        Ok(())
    }

    fn flight(&self) -> Flight {
        let mut flight = Flight::EMPTY;
        for m in 0..POSTINGS {
            for from in 0..SITES {
                for form in 0..FORMS {
                    flight.to[form][m][from] = self.byte(to(form, m, from));
                }
                flight.good[m][from] = self.byte(good(m, from));
                flight.carried[m][from] = self.set(carried(m, from));
            }
        }
        flight
    }
}
