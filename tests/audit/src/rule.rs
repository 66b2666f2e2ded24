// Holds: the audit by its definition, over lists alone: the first line that departs, the lowest posting that shows it, and the finding.
// Rests on: answer, handed.

use crate::answer::{Answer, APART, CROSSED, MISSING};
use crate::handed::Handed;

/// Whether x stands ahead of the first y of a list; or y is not there, and x is.
pub fn ahead_of(x: u16, y: u16, list: &[u16]) -> bool {
    for &z in list {
        if z == y {
            return false;
        }
        if z == x {
            return true;
        }
    }
    false
}

/// Whether site p's record and all lines one behind the other differ on whether x stands ahead of y.
fn differs(handed: &Handed, site: usize, x: u16, y: u16) -> bool {
    let conflict = handed.conflict(x.into(), y.into());
    conflict && ahead_of(x, y, handed.record(site)) != ahead_of(x, y, &handed.lines)
}

/// The site, the line and the posting of the first line that departs.
fn departs(handed: &Handed) -> Option<(usize, usize, u16)> {
    for site in 0..handed.ends.len() {
        for (line, &y) in handed.record(site).iter().enumerate() {
            let mut numbers = (0..handed.numbers()).map(|x| x as u16);
            if let Some(x) = numbers.find(|&x| differs(handed, site, x, y)) {
                return Some((site, line, x));
            }
        }
    }
    None
}

/// The lowest site with a record that is so.
fn lowest(handed: &Handed, so: impl Fn(&[u16]) -> bool) -> Option<u64> {
    let site = (0..handed.ends.len()).find(|&site| so(handed.record(site)));
    site.map(|site| site as u64)
}

/// The code, first, second, here and there of a pair; nothing if it has no fault.
pub fn finding(handed: &Handed, x: u16, y: u16) -> Option<(u64, [u64; 4])> {
    let leads = |x, y| lowest(handed, |list| list.contains(&y) && ahead_of(x, y, list));
    let alone = |x, y| lowest(handed, |list| list.contains(&x) && !list.contains(&y));
    let (forth, back) = (leads(x, y), leads(y, x));
    let (x_alone, y_alone) = (alone(x, y), alone(y, x));
    let [x, y] = [x, y].map(u64::from);
    match (forth, back) {
        (Some(here), Some(there)) => Some((CROSSED, [x, y, here, there])),
        (Some(there), None) => y_alone.map(|here| (MISSING, [x, y, here, there])),
        (None, Some(there)) => x_alone.map(|here| (MISSING, [y, x, here, there])),
        (None, None) => Some((APART, [x, y, x_alone?, y_alone?])),
    }
}

/// The answer for records that are not refused.
pub fn audit(handed: &Handed) -> Answer {
    let Some((site, line, x)) = departs(handed) else {
        return Answer::default();
    };
    let y = handed.record(site)[line];
    let found = finding(handed, x, y);
    let (code, [first, second, here, there]) = found.expect("what shows a line has a finding");
    Answer {
        first,
        second,
        here,
        there,
        ..Answer::at(code, site, line, x.into())
    }
}
