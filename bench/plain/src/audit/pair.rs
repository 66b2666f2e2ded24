// Holds: what is said of a line that departs: the lowest posting that shows it, and the finding; and the plain scan of all pairs.
// Rests on: audit.

use super::{Answer, Handed};

const CROSSED: u64 = 10;
const MISSING: u64 = 11;
const APART: u64 = 12;

/// Marks of a number: above the line in its record; ahead of the line's posting where it was first read.
const ABOVE: u8 = 1;
const AHEAD: u8 = 2;

/// The lowest sites that have x ahead of y, y ahead of x, x without y, and y without x.
#[derive(Default)]
struct Sites {
    forth: Option<usize>,
    back: Option<usize>,
    x_alone: Option<usize>,
    y_alone: Option<usize>,
}

impl Sites {
    /// Takes in the next site, with the places of x and y there.
    fn take(&mut self, site: usize, places: (Option<usize>, Option<usize>)) {
        let sort = match places {
            (None, None) => return,
            (Some(_), None) => &mut self.x_alone,
            (None, Some(_)) => &mut self.y_alone,
            (Some(i), Some(j)) if i < j => &mut self.forth,
            _ => &mut self.back,
        };
        sort.get_or_insert(site);
    }

    /// The code, and first, second, here and there.
    fn finding(&self, x: usize, y: usize) -> Option<(u64, [usize; 4])> {
        match (self.forth, self.back) {
            (Some(here), Some(there)) => Some((CROSSED, [x, y, here, there])),
            (Some(there), None) => Some((MISSING, [x, y, self.y_alone?, there])),
            (None, Some(there)) => Some((MISSING, [y, x, self.x_alone?, there])),
            (None, None) => Some((APART, [x, y, self.x_alone?, self.y_alone?])),
        }
    }
}

impl Handed<'_> {
    /// The lowest posting on which a record and what was read before differ, at a line that departs.
    fn shower(&self, site: usize, line: usize, marks: &mut [u8]) -> Option<usize> {
        let record = self.records().nth(site)?;
        let y = record[line];
        marks.fill(0);
        for &x in &record[..line] {
            marks[usize::from(x)] |= ABOVE;
        }
        for &x in self.lines.iter().take_while(|&&x| x != y) {
            marks[usize::from(x)] |= AHEAD;
        }
        let one_of_two = |mark: u8| mark == ABOVE || mark == AHEAD;
        let numbers = 0..self.kinds.len();
        numbers
            .zip(marks.iter())
            .find(|&(x, &mark)| one_of_two(mark) && self.conflict(x, y.into()))
            .map(|(x, _)| x)
    }

    /// The answer for a line that departs.
    pub(super) fn shown(&self, site: usize, line: usize, marks: &mut [u8]) -> Answer {
        let x = self.shower(site, line, marks);
        let x = x.expect("a line that departs has a posting that shows it");
        let y = self.records().nth(site).map_or(0, |record| record[line]);
        let mut sites = Sites::default();
        for (site, record) in self.records().enumerate() {
            let place = |z: usize| record.iter().position(|&other| usize::from(other) == z);
            sites.take(site, (place(x), place(y.into())));
        }
        let found = sites.finding(x, y.into());
        let (code, [first, second, here, there]) = found.expect("the pair has a finding");
        Answer {
            code,
            named: [site, line, x, 0, first, second, here, there].map(|number| number as u64),
        }
    }
}

/// Whether no pair of conflicting postings has a finding, by a scan of all pairs, for what is not refused.
pub fn pairs_agree(handed: &Handed) -> bool {
    let count = handed.kinds.len();
    let mut places = vec![vec![None; count]; handed.ends.len()];
    for (places, record) in places.iter_mut().zip(handed.records()) {
        for (line, &x) in record.iter().enumerate() {
            places[usize::from(x)] = Some(line);
        }
    }
    let known: Vec<usize> = (0..count).filter(|&x| handed.kinds[x] <= 3).collect();
    let sound = |x: usize, y: usize| {
        let mut sites = Sites::default();
        for (site, places) in places.iter().enumerate() {
            sites.take(site, (places[x], places[y]));
        }
        sites.finding(x, y).is_none()
    };
    let mut pairs = known
        .iter()
        .enumerate()
        .flat_map(|(k, &y)| known[..k].iter().map(move |&x| (x, y)));
    pairs.all(|(x, y)| !handed.conflict(x, y) || sound(x, y))
}
