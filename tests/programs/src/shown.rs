// Holds: what the programs show of a board by other ways than a look-up, and an accepted look-up held to that.
// Rests on: programs, called, pairs; of the model only the sizes of things and the places in a row.

use crate::called::BOOKS;
use crate::pairs::Pair;
use crate::programs::{Programs, FILLED};
use model::lookup::LINE;
use model::numbers::{site, DELIVERED, N};
use model::runfile::EVENT;
use model::{FIGURES, SITES};
use std::collections::{BTreeMap, BTreeSet};

/// Longer than what any run file makes `board` print.
const TEXT: usize = 1 << 16;

/// The length of each site's record, and the books of all sites.
pub struct Shown {
    lengths: Vec<u64>,
    figures: Vec<i64>,
}

impl Shown {
    /// Of the board that a file leaves: the records that are printed, and the books after a drain without events.
    pub fn of_file(programs: &Programs, input: &[u8]) -> Result<Shown, String> {
        let mut text = vec![0; TEXT];
        let length = (programs.run_file)(input, &mut text) as usize;
        let text = text.get(..length).ok_or("the file has no text")?;
        let text = String::from_utf8_lossy(text);
        let records = text.lines().filter(|line| line.starts_with("S "));
        // a letter, the site, up or down, and then the record
        let lengths = records.map(|line| line.split(' ').count() as u64 - 3);
        let mut figures = vec![0; FIGURES * SITES];
        match (programs.run_drain)(input, 0, &mut figures) {
            0 => Ok(Shown {
                lengths: lengths.collect(),
                figures,
            }),
            answer => Err(format!("a drain without events answers {answer}")),
        }
    }

    /// Of that board with one number changed, which must be sound: the row, and the books that a call gives.
    pub fn of_changed(
        programs: &Programs,
        input: &[u8],
        place: u64,
        value: u64,
    ) -> Result<Shown, String> {
        let mut figures = vec![0; FIGURES * SITES];
        let mut row = vec![0; FILLED];
        let event = [BOOKS; EVENT];
        let answer =
            (programs.call_changed)(input, place, value, &event, 0, &mut figures, &mut row);
        if answer != 0 {
            return Err(format!("the books are refused with {answer}"));
        }
        let lengths = (0..row[N] as usize).map(|s| row[site(s, DELIVERED)]);
        Ok(Shown {
            lengths: lengths.collect(),
            figures,
        })
    }

    /// Holds the answer and the lines of an accepted look-up to what is shown.
    pub fn check(&self, pairs: &[Pair], answer: u64, lines: &[i64]) -> Result<(), String> {
        let named: BTreeSet<usize> = pairs.iter().map(|pair| pair[0].into()).collect();
        let lengths = named.iter().map(|&s| self.lengths.get(s));
        let places: Option<u64> = lengths.map(|length| length.copied()).sum();
        let places = places.ok_or("a site is named that is not printed")?;
        if answer != places {
            return Err(format!("visits {answer} places, and not {places}"));
        }
        let mut of_pairs = BTreeMap::new();
        for (pair, line) in pairs.iter().zip(lines.chunks(LINE)) {
            let first = of_pairs.entry(pair).or_insert(line);
            if *first != line {
                let two = format!("{first:?} and {line:?}");
                return Err(format!("equal pairs {pair:?} have the lines {two}"));
            }
        }
        for (&pair, &line) in &of_pairs {
            let [s, account] = pair.map(usize::from);
            let books = &self.figures[FIGURES * s + LINE * account..][..LINE];
            if line != books {
                let two = format!("{line:?}, the books {books:?}");
                return Err(format!("the pair {pair:?} has the line {two}"));
            }
        }
        Ok(())
    }
}
