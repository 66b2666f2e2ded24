// Holds: what `audit` prints, by a plain program, from docs/FORMATS.md.
// Rests on: answer, figures, files, handed, judge.

use crate::answer::{Answer, AGREED, CROSSED, MISSING};
use crate::figures::figures;
use crate::files::{top, Place, Refused};
use crate::handed::{Handed, Lent};
use crate::judge;
use model::{touches, Posting, ACCOUNTS, FIGURES};

const KINDS: [&str; 4] = ["TRADE", "RATE", "CALL", "NET"];
const NAMES: [&str; 4] = ["position", "rate", "called", "settled"];

fn file(number: usize) -> String {
    match number {
        0 => "the postings' file".into(),
        _ => format!("site {}'s file", number - 1),
    }
}

fn line(place: Place) -> String {
    format!("{}, line {}", file(place.file), place.line)
}

fn reason(r: &Refused) -> String {
    let posting = format!("posting {}", r.number);
    match r.code {
        4 => "not number,kind,a,b,amount, nor, in a record beside a file of postings, a number."
            .into(),
        5 => format!("{posting} has fields outside the row of its kind."),
        7 => format!("{posting} is not in the postings' file."),
        8 => format!("{posting} has other fields in {}.", line(r.other)),
        _ => format!("{posting} stands on line {} already.", r.other.line),
    }
}

/// The report of a refusal.
pub fn refused(r: &Refused) -> String {
    let said = match (r.code, r.number) {
        (1, _) => "There must be one to seven records.".into(),
        (2, _) => "The matrix must be symmetric and have the fixed pairs.".into(),
        (3, 0) => format!("This file cannot be read: {}.", file(r.place.file)),
        (3, _) => format!(
            "This file has 2097152 bytes or more: {}.",
            file(r.place.file)
        ),
        _ => format!("In {}: {}", line(r.place), reason(r)),
    };
    format!("NOT AUDITED {}\n{said}\n", r.code)
}

fn cents(x: i64) -> String {
    let sign = if x < 0 { "-" } else { "" };
    let size = x.unsigned_abs();
    format!("{sign}{}.{:02}", size / 100, size % 100)
}

/// The records as they were handed over, with the number of each file's first line.
pub struct Report<'a> {
    handed: &'a Handed,
    tops: Vec<usize>,
}

impl Report<'_> {
    fn posting(&self, x: usize) -> String {
        format!("{} {x}", KINDS[usize::from(self.handed.kinds[x])])
    }

    fn stands(&self, site: usize, x: usize) -> String {
        let mut record = self.handed.record(site).iter();
        let place = record.position(|&y| usize::from(y) == x);
        let number = self.tops[site] + place.expect("it is in the record");
        format!("{} (line {number})", self.posting(x))
    }

    fn ahead(&self, site: usize, x: usize, y: usize) -> String {
        let [x, y] = [x, y].map(|x| self.stands(site, x));
        format!("Site {site} booked {x} ahead of {y}.\n")
    }

    fn without(&self, site: usize, x: usize, y: usize) -> String {
        let [x, y] = [self.stands(site, x), self.posting(y)];
        format!("Site {site} booked {x} without {y}.\n")
    }

    fn finding(&self, r: &Answer) -> String {
        let [x, y, p, q] = [r.first, r.second, r.here, r.there].map(|x| x as usize);
        match r.code {
            CROSSED => self.ahead(p, x, y) + &self.ahead(q, y, x),
            MISSING => self.without(p, y, x) + &self.ahead(q, x, y),
            _ => self.without(p, x, y) + &self.without(q, y, x) + "No site booked both.\n",
        }
    }

    fn fields(&self, x: usize) -> String {
        let Posting {
            kind, a, b, amount, ..
        } = self.handed.posting(x);
        let said = match kind {
            0 => format!("accounts {a} and {b}, {}", cents(amount.into())),
            1 => format!("account {a}, {amount} per 10,000"),
            3 if a == 255 => "every account".into(),
            _ => format!("account {a}"),
        };
        format!("{}: {said}.\n", self.posting(x))
    }

    fn pair(&self, r: &Answer) -> String {
        let [x, y] = [r.first, r.second].map(|x| x as usize);
        let [p, q] = [x, y].map(|x| self.handed.posting(x));
        let shared = (0..ACCOUNTS as u8).filter(|&k| touches(&p, k) && touches(&q, k));
        let shared: String = shared.map(|k| format!(" {k}")).collect();
        format!(
            "{}{}They conflict on these accounts:{shared}.\nAll that was read ahead of site {}'s line {} agrees: \
             the sites before it whole, and its own lines above. With that line the records do not agree.\n",
            self.fields(x),
            self.fields(y),
            r.site,
            self.tops[r.site as usize] + r.line as usize,
        )
    }

    fn read(&self) -> String {
        let known = (0..self.handed.numbers()).filter(|&x| self.handed.knows(x));
        let [sites, lines] = [self.handed.ends.len(), self.handed.lines.len()];
        format!(
            "Records read: {sites}. Lines: {lines}. Postings: {}.\n",
            known.count()
        )
    }

    /// What each site lacks that others hold.
    fn lacks(&self) -> String {
        let mut all = String::new();
        for site in 0..self.handed.ends.len() {
            let held = |x: usize, lines: &[u16]| lines.contains(&(x as u16));
            let lacked =
                |x: &usize| held(*x, &self.handed.lines) && !held(*x, self.handed.record(site));
            let lacked: Vec<usize> = (0..self.handed.numbers()).filter(lacked).collect();
            if let Some(&lowest) = lacked.first() {
                let many = lacked.len();
                let lowest = self.posting(lowest);
                all += &format!("Site {site} lacks {many} of the postings that others hold, the lowest {lowest}.\n");
            }
        }
        all
    }

    fn table(&self) -> String {
        let sites = 0..self.handed.ends.len();
        let of = |site: usize| {
            let mut alone = self.handed.clone();
            alone.lines = self.handed.record(site).to_vec();
            figures(&alone)
        };
        let all: Vec<[i64; FIGURES]> = sites.map(of).collect();
        let differ = |row: &usize| all.iter().any(|f| f[*row] != all[0][*row]);
        let rows: Vec<usize> = (0..FIGURES).filter(differ).collect();
        if rows.is_empty() {
            return "All 64 figures of these records, posted from zeros, are equal at all sites.\n"
                .into();
        }
        let heading = (0..all.len()).map(|site| format!("{:>16}", format!("site {site}")));
        let mut text = format!(
            "Figures of these records, posted from zeros, that differ (rates per 10,000):\n{:20}{}\n",
            "",
            heading.collect::<String>()
        );
        for row in rows {
            let name = format!("account {} {}", row / 4, NAMES[row % 4]);
            let column = |f: &[i64; FIGURES]| match row % 4 {
                1 => format!("{:>16}", f[row]),
                _ => format!("{:>16}", cents(f[row])),
            };
            text += &format!("{name:20}{}\n", all.iter().map(column).collect::<String>());
        }
        text
    }
}

fn place(tops: &[usize], site: u64, line: u64) -> Place {
    Place {
        file: site as usize + 1,
        line: tops[site as usize] + line as usize,
    }
}

/// The report of what the files hand over.
pub fn report(handed: &Handed, records: &[Option<Vec<u8>>]) -> String {
    let tops: Vec<usize> = records.iter().flatten().map(|text| top(text)).collect();
    let answer = judge::answer(handed, &Lent::for_numbers(handed.numbers()));
    let refusal = Refused {
        code: answer.code as u8,
        place: place(&tops, answer.site, answer.line),
        number: answer.posting as usize,
        other: place(&tops, answer.site, answer.above),
    };
    let report = Report { handed, tops };
    if answer.code == AGREED {
        let lacks = report.lacks();
        let verdict = if lacks.is_empty() {
            "SAME BOOKS"
        } else {
            "AGREE SO FAR"
        };
        let order =
            "One order for all: site 0's record, then what site 1 has beyond it, and so on.";
        let [read, table] = [report.read(), report.table()];
        return format!("{verdict}\n{read}{lacks}{order}\n{table}");
    }
    if !answer.names_pair() {
        return refused(&refusal);
    }
    let [finding, pair] = [report.finding(&answer), report.pair(&answer)];
    format!(
        "DO NOT AGREE\n{finding}{pair}{}{}",
        report.read(),
        report.table()
    )
}
