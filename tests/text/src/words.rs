// Holds: the words of one line, taken one after another, with what is wrong where one does not fit.
// Rests on: nothing.

use std::str::SplitAsciiWhitespace;

/// The names of the kinds and of the forms, each at its number.
pub const KINDS: [&str; 4] = ["TRADE", "RATE", "CALL", "NET"];
pub const FORMS: [&str; 4] = ["FIRST", "SECOND", "THIRD", "DELIVER"];

/// The largest values of the fields. A cut byte of 255 says uncut.
pub const BYTE: u64 = 0xFF;
pub const MATRIX: u64 = 0xFFFF;
pub const AMOUNT: u64 = 0xFFFF_FFFF;
pub const CUT: u64 = 254;

pub struct Words<'a>(SplitAsciiWhitespace<'a>);

/// The value of a word that is a number; one too large for 64 bits is the largest there is.
fn value(word: &str) -> Option<u64> {
    let (digits, base) = match word.strip_prefix("0x") {
        Some(digits) => (digits, 16),
        None => (word, 10),
    };
    let fits = |c: char| c.is_digit(base);
    if digits.is_empty() || !digits.chars().all(fits) {
        return None;
    }
    Some(u64::from_str_radix(digits, base).unwrap_or(u64::MAX))
}

impl<'a> Words<'a> {
    /// The words of a line without its comment.
    pub fn of(line: &'a str) -> Words<'a> {
        let said = line.split('#').next().unwrap_or("");
        Words(said.split_ascii_whitespace())
    }

    pub fn is_empty(&self) -> bool {
        self.0.clone().next().is_none()
    }

    pub fn word(&mut self, what: &str) -> Result<&'a str, String> {
        let missing = || format!("the line ends where {what} should stand");
        self.0.next().ok_or_else(missing)
    }

    pub fn expect(&mut self, wanted: &str) -> Result<(), String> {
        let quoted = format!("`{wanted}`");
        match self.word(&quoted)? {
            word if word == wanted => Ok(()),
            word => Err(format!("{quoted} should stand where `{word}` does")),
        }
    }

    pub fn number(&mut self, what: &str, most: u64) -> Result<u64, String> {
        self.named(what, &[], most)
    }

    /// A number, or a name that stands for its place among the names.
    pub fn named(&mut self, what: &str, names: &[&str], most: u64) -> Result<u64, String> {
        let word = self.word(what)?;
        if let Some(place) = names.iter().position(|name| *name == word) {
            return Ok(place as u64);
        }
        match value(word) {
            Some(number) if number <= most => Ok(number),
            Some(_) => Err(format!("{what} is {word}, but {most} is the most")),
            None if names.is_empty() => Err(format!("{what} is `{word}`, which is no number")),
            None => {
                let known = names.join(", ");
                Err(format!("{what} is `{word}`, neither {known} nor a number"))
            }
        }
    }

    /// The cut at the end of an event, if it has one.
    pub fn cut(&mut self) -> Result<Option<u64>, String> {
        if self.is_empty() {
            return Ok(None);
        }
        self.expect("cut")?;
        self.number("the cut", CUT).map(Some)
    }

    pub fn end(&mut self) -> Result<(), String> {
        match self.0.next() {
            None => Ok(()),
            Some(word) => Err(format!("the line should end where `{word}` stands")),
        }
    }
}
