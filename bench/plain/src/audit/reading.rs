// Holds: the one reading of all records: the first line that departs from what was read before it.
// Rests on: audit.

use super::{nets_all, Handed, KINDS, NET};

/// A class is a kind on an account, or a kind on any account: the row of all accounts comes last.
const ACCOUNTS: usize = 16;
const EVERY: usize = ACCOUNTS;
const CLASSES: usize = KINDS * (ACCOUNTS + 1);

/// For each posting four numbers of its first account and four of its second.
const NUMBERS: usize = 2 * KINDS;

/// A posting's kind, the kinds that conflict with it, and where the classes of its accounts begin.
struct Posting {
    kind: usize,
    conflicts: u16,
    a: usize,
    b: usize,
}

impl Posting {
    fn of(handed: &Handed, y: usize) -> Posting {
        let [kind, a, b] = [handed.kinds[y], handed.firsts[y], handed.seconds[y]];
        let [a, b] = if nets_all(kind, a, b) {
            [EVERY, EVERY]
        } else {
            [a, b].map(usize::from)
        };
        Posting {
            kind: kind.into(),
            conflicts: handed.matrix >> (KINDS * usize::from(kind)),
            a: KINDS * a,
            b: KINDS * b,
        }
    }

    /// Does something to each class that the posting is in.
    fn each_class(&self, mut change: impl FnMut(usize)) {
        change(KINDS * EVERY + self.kind);
        if self.a == KINDS * EVERY {
            (0..ACCOUNTS).for_each(|account| change(KINDS * account + usize::from(NET)));
            return;
        }
        change(self.a + self.kind);
        if self.a != self.b {
            change(self.b + self.kind);
        }
    }
}

/// Of a record's lines so far: how many of each class, and the highest of their places.
struct Above {
    counts: [u32; CLASSES],
    highest: [u32; CLASSES],
}

impl Above {
    /// Whether those of an account that conflict are just those that stood ahead where the posting was first read.
    fn fits(&self, conflicts: u16, row: usize, ahead: &[u32], place: u32) -> bool {
        (0..KINDS).all(|kind| {
            let same = self.counts[row + kind] == ahead[kind];
            conflicts >> kind & 1 == 0 || same && self.highest[row + kind] < place
        })
    }

    fn take(&mut self, posting: &Posting, place: u32) {
        posting.each_class(|class| {
            self.counts[class] += 1;
            self.highest[class] = self.highest[class].max(place);
        });
    }
}

/// Of all that was read: how many postings, and how many of each class.
struct Read {
    count: u32,
    totals: [u32; CLASSES],
}

impl Read {
    /// A posting that is read for the first time: its place, and what stood ahead of it.
    fn note(&mut self, posting: &Posting, place: &mut u32, ahead: &mut [u32; NUMBERS]) {
        self.count += 1;
        *place = self.count;
        let (first, second) = ahead.split_at_mut(KINDS);
        first.copy_from_slice(&self.totals[posting.a..][..KINDS]);
        second.copy_from_slice(&self.totals[posting.b..][..KINDS]);
        posting.each_class(|class| self.totals[class] += 1);
    }
}

impl Handed<'_> {
    /// The site and the line.
    pub(super) fn departs(&self, places: &mut [u32], ahead: &mut [u32]) -> Option<(usize, usize)> {
        places.fill(0);
        let (ahead, _) = ahead.as_chunks_mut::<NUMBERS>();
        let mut read = Read {
            count: 0,
            totals: [0; CLASSES],
        };
        for (site, record) in self.records().enumerate() {
            if let Some(line) = self.record_departs(record, &mut read, places, ahead) {
                return Some((site, line));
            }
        }
        None
    }

    fn record_departs(
        &self,
        record: &[u16],
        read: &mut Read,
        places: &mut [u32],
        ahead: &mut [[u32; NUMBERS]],
    ) -> Option<usize> {
        let mut above = Above {
            counts: [0; CLASSES],
            highest: [0; CLASSES],
        };
        for (line, &y) in record.iter().enumerate() {
            let y = usize::from(y);
            let posting = Posting::of(self, y);
            let (place, ahead) = (&mut places[y], &mut ahead[y]);
            if *place == 0 {
                read.note(&posting, place, ahead);
            }
            let Posting {
                conflicts, a, b, ..
            } = posting;
            let (first, second) = ahead.split_at(KINDS);
            let fits = above.fits(conflicts, a, first, *place)
                && (a == b || above.fits(conflicts, b, second, *place));
            if !fits {
                return Some(line);
            }
            above.take(&posting, *place);
        }
        None
    }
}
