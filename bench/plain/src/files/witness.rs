// Holds: what is said of records that do not agree: the sites, the two postings, and the line that departs.
// Rests on: reading, refusals, lines, figures; audit.

use super::figures::{cents, ACCOUNTS};
use super::lines::Fields;
use super::reading::Read;
use super::refusals::Place;
use crate::audit::{nets_all, FILLED};

const KINDS: [&str; 4] = ["TRADE", "RATE", "CALL", "NET"];

/// What the audit answers; all other codes that name a pair say that it is apart.
const CROSSED: u64 = 10;
const MISSING: u64 = 11;

/// The numbers of the answer.
pub struct Answer {
    pub code: u64,
    pub named: [usize; FILLED],
}

fn touches(p: Fields, account: u8) -> bool {
    p.a == account || p.b == account || nets_all(p.kind, p.a, p.b)
}

impl Read {
    pub fn posting(&self, x: usize) -> String {
        format!("{} {x}", KINDS[usize::from(self.fields[x].kind)])
    }

    fn stands(&self, site: usize, x: usize) -> String {
        let mut record = self.record(site).iter();
        let found = record.position(|&y| usize::from(y) == x);
        let Place { line, .. } = self.place(site, found.expect("it is in the record"));
        format!("{} (line {line})", self.posting(x))
    }

    fn ahead(&self, site: usize, x: usize, y: usize) -> String {
        let [x, y] = [x, y].map(|x| self.stands(site, x));
        format!("Site {site} booked {x} ahead of {y}.\n")
    }

    fn without(&self, site: usize, x: usize, y: usize) -> String {
        let [x, y] = [self.stands(site, x), self.posting(y)];
        format!("Site {site} booked {x} without {y}.\n")
    }

    fn fields_of(&self, x: usize) -> String {
        let Fields { amount, kind, a, b } = self.fields[x];
        let said = match kind {
            0 => format!("accounts {a} and {b}, {}", cents(amount.into())),
            1 => format!("account {a}, {amount} per 10,000"),
            _ if nets_all(kind, a, b) => "every account".into(),
            _ => format!("account {a}"),
        };
        format!("{}: {said}.\n", self.posting(x))
    }

    /// The two sites and postings, what these are, and the line that departs.
    pub fn witness(&self, r: &Answer) -> String {
        let [site, line, _, _, x, y, p, q] = r.named;
        let booked = match r.code {
            CROSSED => self.ahead(p, x, y) + &self.ahead(q, y, x),
            MISSING => self.without(p, y, x) + &self.ahead(q, x, y),
            _ => self.without(p, x, y) + &self.without(q, y, x) + "No site booked both.\n",
        };
        let both = |&k: &u8| touches(self.fields[x], k) && touches(self.fields[y], k);
        let shared = (0..ACCOUNTS as u8).filter(both).map(|k| format!(" {k}"));
        format!(
            "{booked}{}{}They conflict on these accounts:{}.\nAll that was read ahead of site {site}'s line {} agrees: \
             the sites before it whole, and its own lines above. With that line the records do not agree.\n",
            self.fields_of(x),
            self.fields_of(y),
            shared.collect::<String>(),
            self.place(site, line).line,
        )
    }
}
