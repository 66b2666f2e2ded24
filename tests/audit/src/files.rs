// Holds: the files of an audit read by a plain program, from docs/FORMATS.md: what is handed over, or the first refusal with its file and line.
// Rests on: handed; the model's field rule and its tests of a matrix.

use crate::handed::Handed;
use model::{fields_ok, matrix_has_fixed_pairs, matrix_symmetric, Posting};

/// A file with so many bytes, or more, is refused.
pub const TOO_LONG: usize = 2_097_152;

const NUMBERS: usize = 65_536;
const KINDS: [&[u8]; 4] = [b"TRADE", b"RATE", b"CALL", b"NET"];

/// A line of a file; file 0 holds the postings, file p + 1 is site p's.
#[derive(Clone, Copy, Debug, PartialEq, Eq)]
pub struct Place {
    pub file: usize,
    pub line: usize,
}

/// A refusal at a place, with the posting that it names and the place where that was read.
#[derive(Clone, Copy, Debug, PartialEq, Eq)]
pub struct Refused {
    pub code: u8,
    pub place: Place,
    pub number: usize,
    pub other: Place,
}

/// What a line says.
enum Said {
    Malformed,
    Number(usize),
    Posting(usize, Posting),
}

/// Decimal digits without a leading zero, up to the most.
fn number(field: &[u8], most: u64) -> Option<u64> {
    let digits = !field.is_empty() && field.iter().all(u8::is_ascii_digit);
    if !digits || (field[0] == b'0' && field.len() > 1) || field.len() > 10 {
        return None;
    }
    let text = std::str::from_utf8(field).ok()?;
    text.parse().ok().filter(|&value| value <= most)
}

fn kind(field: &[u8]) -> Option<u8> {
    let word = KINDS.iter().position(|word| *word == field);
    word.map(|kind| kind as u8)
        .or_else(|| number(field, 3).map(|kind| kind as u8))
}

fn all_fields(fields: &[&[u8]]) -> Option<(usize, Posting)> {
    let &[name, word, a, b, amount] = fields else {
        return None;
    };
    let posting = Posting {
        owner: 0,
        kind: kind(word)?,
        a: number(a, 255)? as u8,
        b: number(b, 255)? as u8,
        amount: number(amount, u32::MAX.into())? as u32,
    };
    Some((number(name, 65_535)? as usize, posting))
}

fn said(line: &[u8]) -> Said {
    let fields: Vec<&[u8]> = line.split(|&byte| byte == b',').collect();
    if let [name] = fields[..] {
        return match number(name, 65_535) {
            Some(x) => Said::Number(x as usize),
            None => Said::Malformed,
        };
    }
    match all_fields(&fields) {
        Some((x, posting)) => Said::Posting(x, posting),
        None => Said::Malformed,
    }
}

/// The lines of a file with their numbers, without a heading.
fn lines(text: &[u8]) -> Vec<(usize, Said)> {
    let mut rest = text;
    let mut all = Vec::new();
    let mut count = 0;
    while !rest.is_empty() {
        count += 1;
        let (line, behind) = match rest.iter().position(|&byte| byte == b'\n') {
            Some(end) => {
                let line = &rest[..end];
                (line.strip_suffix(b"\r").unwrap_or(line), &rest[end + 1..])
            }
            None => (rest, &rest[rest.len()..]),
        };
        let heading = count == 1 && text[0].is_ascii_alphabetic();
        if !heading {
            all.push((count, said(line)));
        }
        rest = behind;
    }
    all
}

/// The first line of a file that is no heading.
pub fn top(text: &[u8]) -> usize {
    1 + usize::from(text.first().is_some_and(u8::is_ascii_alphabetic))
}

/// What has been read, and the lowest refusal so far, at the first place that has it.
struct Reading {
    postings: Vec<Option<(Posting, Place)>>,
    refused: Option<Refused>,
}

impl Reading {
    fn refuse(&mut self, code: u8, place: Place, number: usize) {
        let lower = self.refused.is_none_or(|refused| code < refused.code);
        if lower {
            let other = self.postings[number].map_or(Place { file: 0, line: 0 }, |known| known.1);
            self.refused = Some(Refused {
                code,
                place,
                number,
                other,
            });
        }
    }

    /// A line that must have all fields; a second one of its number is refused, unless it is a record's own.
    fn take_posting(&mut self, place: Place, said: &Said, own: bool) {
        let &Said::Posting(x, posting) = said else {
            self.refuse(4, place, 0);
            return;
        };
        let lawful = fields_ok(
            posting.kind.into(),
            posting.a.into(),
            posting.b.into(),
            posting.amount.into(),
        );
        if !lawful {
            self.refuse(5, place, x);
        }
        if self.postings[x].is_none() {
            self.postings[x] = Some((posting, place));
        } else if !own {
            self.refuse(6, place, x);
        }
    }

    /// A line of a record beside its postings.
    fn take_line(&mut self, place: Place, said: &Said) -> usize {
        let (x, shown) = match said {
            Said::Malformed => {
                self.refuse(4, place, 0);
                return 0;
            }
            Said::Number(x) => (*x, None),
            Said::Posting(x, posting) => (*x, Some(*posting)),
        };
        match (self.postings[x], shown) {
            (None, _) => self.refuse(7, place, x),
            (Some((known, _)), Some(shown)) if known != shown => self.refuse(8, place, x),
            _ => {}
        }
        x
    }
}

fn first_of(code: u8, file: usize, number: usize) -> Refused {
    let place = Place { file, line: 0 };
    Refused {
        code,
        place,
        number,
        other: Place { file: 0, line: 0 },
    }
}

/// The refusals before any line is read: sites, matrix, files. A file that could not be read is None.
fn before(
    matrix: Option<u16>,
    postings: Option<&Option<Vec<u8>>>,
    records: &[Option<Vec<u8>>],
) -> Option<Refused> {
    if records.is_empty() || records.len() > 7 {
        return Some(first_of(1, 0, 0));
    }
    if !matrix.is_some_and(|m| matrix_symmetric(m) && matrix_has_fixed_pairs(m)) {
        return Some(first_of(2, 0, 0));
    }
    let files = std::iter::once((0, postings.unwrap_or(&Some(Vec::new())).clone()));
    let mut files = files.chain(records.iter().enumerate().map(|(p, r)| (p + 1, r.clone())));
    files.find_map(|(file, bytes)| match bytes {
        None => Some(first_of(3, file, 0)),
        Some(bytes) if bytes.len() >= TOO_LONG => Some(first_of(3, file, 1)),
        Some(_) => None,
    })
}

fn handed(matrix: u16, reading: &Reading, records: &[Vec<u16>]) -> Handed {
    let mut handed = Handed::new(matrix, &[]);
    let last = reading.postings.iter().rposition(Option::is_some);
    for known in &reading.postings[..last.map_or(0, |last| last + 1)] {
        match known {
            Some((posting, _)) => handed.add(posting),
            None => handed.skip(),
        }
    }
    handed.replace(records);
    handed
}

/// What the files hand over, with no number behind the last that has a posting; `postings` is None where the records bring their own.
pub fn read(
    matrix: Option<u16>,
    postings: Option<&Option<Vec<u8>>>,
    records: &[Option<Vec<u8>>],
) -> Result<Handed, Refused> {
    if let Some(refused) = before(matrix, postings, records) {
        return Err(refused);
    }
    let mut reading = Reading {
        postings: vec![None; NUMBERS],
        refused: None,
    };
    if let Some(Some(text)) = postings {
        for (line, said) in lines(text) {
            reading.take_posting(Place { file: 0, line }, &said, false);
        }
    }
    let mut read = Vec::new();
    for (site, text) in records.iter().flatten().enumerate() {
        let file = site + 1;
        let lines = lines(text);
        if postings.is_none() {
            for (line, said) in &lines {
                reading.take_posting(Place { file, line: *line }, said, true);
            }
        }
        let place = |line| Place { file, line };
        let record = lines.iter();
        let record = record.map(|(line, said)| reading.take_line(place(*line), said) as u16);
        read.push(record.collect());
    }
    match reading.refused {
        Some(refused) => Err(refused),
        None => Ok(handed(matrix.unwrap_or(0), &reading, &read)),
    }
}
