// Holds: the audit of what was read, and its report.
// Rests on: reading, refusals, witness, lines, figures; audit.

use super::figures::{cents, figures, Figures, ACCOUNTS, OF_ACCOUNT, RATE};
use super::lines::NO_KIND;
use super::reading::Read;
use super::refusals::{refused, Place, Refused};
use super::witness::Answer;
use crate::audit::{audit_records, Handed, Lent, FILLED};

const NAMES: [&str; OF_ACCOUNT] = ["position", "rate", "called", "settled"];

/// What the audit answers, beside refusals.
const AGREED: u64 = 0;
const TWICE: u64 = 9;

/// The answer of the audit, which is handed slices by field.
fn answer(matrix: u16, read: &Read) -> Answer {
    let count = read.fields.len();
    let kinds: Vec<u8> = read.fields.iter().map(|p| p.kind).collect();
    let firsts: Vec<u8> = read.fields.iter().map(|p| p.a).collect();
    let seconds: Vec<u8> = read.fields.iter().map(|p| p.b).collect();
    let amounts: Vec<u32> = read.fields.iter().map(|p| p.amount).collect();
    let handed = Handed {
        matrix,
        kinds: &kinds,
        firsts: &firsts,
        seconds: &seconds,
        amounts: &amounts,
        lines: &read.lines,
        ends: &read.ends,
    };
    let mut lent = Lent {
        marks: &mut vec![0; count],
        places: &mut vec![0; count],
        ahead: &mut vec![0; 8 * count],
    };
    let mut out = [0; FILLED];
    let code = audit_records(&handed, &mut lent, &mut out);
    Answer {
        code,
        named: out.map(|number| number as usize),
    }
}

impl Read {
    pub fn record(&self, site: usize) -> &[u16] {
        let from = if site == 0 { 0 } else { self.ends[site - 1] };
        &self.lines[from..self.ends[site]]
    }

    pub fn place(&self, site: usize, line: usize) -> Place {
        Place {
            file: site as u32 + 1,
            line: self.tops[site] + line as u32,
        }
    }

    fn counts(&self) -> String {
        let [sites, lines] = [self.ends.len(), self.lines.len()];
        let known = self.fields.iter().filter(|p| p.kind != NO_KIND).count();
        format!("Records read: {sites}. Lines: {lines}. Postings: {known}.\n")
    }

    /// What each site lacks that others hold. A number is marked with a bit for each site that has it.
    fn lacks(&self) -> String {
        let mut marks = vec![0_u8; self.fields.len()];
        let sites = 0..self.ends.len();
        for site in sites.clone() {
            for &x in self.record(site) {
                marks[usize::from(x)] |= 1 << site;
            }
        }
        let mut text = String::new();
        for site in sites {
            let lacked = |mark: &&u8| **mark != 0 && **mark >> site & 1 == 0;
            let many = marks.iter().filter(lacked).count();
            if let Some(lowest) = marks.iter().position(|mark| lacked(&mark)) {
                let lowest = self.posting(lowest);
                text += &format!("Site {site} lacks {many} of the postings that others hold, the lowest {lowest}.\n");
            }
        }
        text
    }

    /// The figures that differ.
    fn table(&self) -> String {
        let sites = 0..self.ends.len();
        let of = |site| figures(&self.fields, self.record(site));
        let all: Vec<Figures> = sites.clone().map(of).collect();
        if all.iter().all(|figures| *figures == all[0]) {
            return "All 64 figures of these records, posted from zeros, are equal at all sites.\n"
                .into();
        }
        let heading = sites.map(|site| format!("{:>16}", format!("site {site}")));
        let mut text = format!(
            "Figures of these records, posted from zeros, that differ (rates per 10,000):\n{:20}{}\n",
            "",
            heading.collect::<String>()
        );
        for account in 0..ACCOUNTS {
            for figure in 0..OF_ACCOUNT {
                text += &row(&all, account, figure);
            }
        }
        text
    }
}

/// The row of a figure; none where it is the same at all sites.
fn row(all: &[Figures], account: usize, figure: usize) -> String {
    let values = all.iter().map(|figures| figures[account][figure]);
    let first = all[0][account][figure];
    if values.clone().all(|value| value == first) {
        return String::new();
    }
    let name = format!("account {account} {}", NAMES[figure]);
    let shown = values.map(|value| match figure {
        RATE => value.to_string(),
        _ => cents(value),
    });
    let columns: String = shown.map(|value| format!("{value:>16}")).collect();
    format!("{name:20}{columns}\n")
}

/// The report of what was read.
pub fn report(matrix: u16, read: &Read) -> String {
    let answer = answer(matrix, read);
    let [site, line, posting, above, ..] = answer.named;
    match answer.code {
        AGREED => {
            let lacks = read.lacks();
            let verdict = if lacks.is_empty() {
                "SAME BOOKS"
            } else {
                "AGREE SO FAR"
            };
            let order =
                "One order for all: site 0's record, then what site 1 has beyond it, and so on.";
            let [counts, table] = [read.counts(), read.table()];
            format!("{verdict}\n{counts}{lacks}{order}\n{table}")
        }
        TWICE => refused(&Refused {
            code: TWICE as u8,
            place: read.place(site, line),
            number: posting as u16,
            other: read.place(site, above),
        }),
        _ => {
            let [witness, counts, table] = [read.witness(&answer), read.counts(), read.table()];
            format!("DO NOT AGREE\n{witness}{counts}{table}")
        }
    }
}
