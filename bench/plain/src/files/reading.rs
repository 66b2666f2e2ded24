// Holds: the files of an audit read into one buffer, one after another: postings by their numbers and records, or the first of refusals 3 to 8.
// Rests on: lines, refusals; audit for the rows of the kinds.

use super::lines::{top, Fields, Line, Lines, NO_KIND, NO_POSTING};
use super::refusals::{Place, Refused};
use crate::audit::in_row;
use std::fs::File;
use std::io::{self, ErrorKind};

const NUMBERS: usize = 65_536;

/// What fills the buffer is refused.
const TOO_LONG: usize = 2_097_152;

const BAD_FILE: u8 = 3;
const MALFORMED: u8 = 4;
const OUTSIDE: u8 = 5;
const TWICE: u8 = 6;
const UNKNOWN: u8 = 7;
const OTHER_FIELDS: u8 = 8;

/// What was read: the fields of the postings by number, up to the highest; the lines of all records, where each ends,
/// and the number of the first line in each file.
pub struct Read {
    pub fields: Vec<Fields>,
    pub lines: Vec<u16>,
    pub ends: Vec<usize>,
    pub tops: Vec<u32>,
}

/// What has been read, where each posting was, and the lowest refusal so far, at the first place that has it.
struct Reading {
    read: Read,
    wheres: Vec<Place>,
    refused: Option<Refused>,
}

/// Fills the buffer from a file: so many bytes.
fn load(name: &str, buffer: &mut [u8]) -> io::Result<usize> {
    let mut file = File::open(name)?;
    let mut length = 0;
    loop {
        match io::Read::read(&mut file, &mut buffer[length..]) {
            Ok(0) => return Ok(length),
            Ok(count) => length += count,
            Err(error) if error.kind() == ErrorKind::Interrupted => {}
            Err(error) => return Err(error),
        }
    }
}

impl Reading {
    fn new() -> Reading {
        Reading {
            read: Read {
                fields: Vec::with_capacity(NUMBERS),
                lines: Vec::with_capacity(NUMBERS),
                ends: Vec::new(),
                tops: Vec::new(),
            },
            wheres: Vec::with_capacity(NUMBERS),
            refused: None,
        }
    }

    #[cold]
    fn refuse(&mut self, code: u8, place: Place, number: u16) {
        if self.refused.is_none_or(|refused| code < refused.code) {
            let other = self.wheres.get(usize::from(number));
            self.refused = Some(Refused {
                code,
                place,
                number,
                other: other.copied().unwrap_or_default(),
            });
        }
    }

    /// The text of a file; one that cannot be had is refused.
    fn text<'a>(&mut self, file: u32, name: &str, buffer: &'a mut [u8]) -> Option<&'a [u8]> {
        let place = Place { file, line: 0 };
        match load(name, buffer) {
            Ok(length) if length < TOO_LONG => return Some(&buffer[..length]),
            Ok(_) => self.refuse(BAD_FILE, place, 1),
            Err(error) => {
                eprintln!("{name}: {error}");
                self.refuse(BAD_FILE, place, 0);
            }
        }
        None
    }

    fn known(&self, x: u16) -> Option<Fields> {
        let fields = self.read.fields.get(usize::from(x)).copied();
        fields.filter(|fields| fields.kind != NO_KIND)
    }

    /// Notes the posting of a number that has none.
    fn note(&mut self, place: Place, x: u16, fields: Fields) {
        if !in_row(fields.kind, fields.a, fields.b, fields.amount) {
            self.refuse(OUTSIDE, place, x);
        }
        let x = usize::from(x);
        if x >= self.read.fields.len() {
            self.read.fields.resize(x + 1, NO_POSTING);
            self.wheres.resize(x + 1, Place::default());
        }
        self.read.fields[x] = fields;
        self.wheres[x] = place;
    }

    /// A second line of a posting.
    #[cold]
    fn refuse_second(&mut self, code: u8, place: Place, x: u16, fields: Fields) {
        if !in_row(fields.kind, fields.a, fields.b, fields.amount) {
            self.refuse(OUTSIDE, place, x);
        }
        self.refuse(code, place, x);
    }

    /// A line of the postings' file.
    fn take_posting(&mut self, place: Place, line: Line) {
        match line {
            Line::Posting(x, fields) if self.known(x).is_none() => self.note(place, x, fields),
            Line::Posting(x, fields) => self.refuse_second(TWICE, place, x, fields),
            _ => self.refuse(MALFORMED, place, 0),
        }
    }

    /// A line of a record that brings its own postings.
    fn take_own(&mut self, place: Place, line: Line) {
        let Line::Posting(x, fields) = line else {
            return self.refuse(MALFORMED, place, 0);
        };
        match self.known(x) {
            None => self.note(place, x, fields),
            Some(known) if known == fields => {}
            Some(_) => self.refuse_second(OTHER_FIELDS, place, x, fields),
        }
        self.read.lines.push(x);
    }

    /// A line of a record beside a file of postings.
    fn take_line(&mut self, place: Place, line: Line) {
        let (x, shown) = match line {
            Line::Number(x) => (x, None),
            Line::Posting(x, fields) => (x, Some(fields)),
            Line::Malformed => return self.refuse(MALFORMED, place, 0),
        };
        match self.known(x) {
            None => self.refuse(UNKNOWN, place, x),
            Some(known) if shown.is_none_or(|shown| shown == known) => {}
            Some(_) => self.refuse(OTHER_FIELDS, place, x),
        }
        self.read.lines.push(x);
    }

    /// All lines of a file.
    fn take_file(&mut self, file: u32, text: &[u8], take: impl Fn(&mut Reading, Place, Line)) {
        for (line, said) in (top(text)..).zip(Lines::of(text)) {
            take(self, Place { file, line }, said);
        }
    }
}

impl Read {
    /// The files of the postings and of all sites; without the first the records bring their own postings.
    pub fn files(postings: Option<&str>, records: &[String]) -> Result<Read, Refused> {
        let mut buffer = vec![0; TOO_LONG];
        let mut reading = Reading::new();
        if let Some(name) = postings {
            if let Some(text) = reading.text(0, name, &mut buffer) {
                reading.take_file(0, text, Reading::take_posting);
            }
        }
        for (file, name) in (1..).zip(records) {
            let text = reading.text(file, name, &mut buffer).unwrap_or_default();
            match postings {
                Some(_) => reading.take_file(file, text, Reading::take_line),
                None => reading.take_file(file, text, Reading::take_own),
            }
            reading.read.tops.push(top(text));
            reading.read.ends.push(reading.read.lines.len());
        }
        match reading.refused {
            Some(refused) => Err(refused),
            None => Ok(reading.read),
        }
    }
}
