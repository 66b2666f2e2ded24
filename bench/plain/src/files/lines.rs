// Holds: the lines of a file, parsed in one pass over its bytes.
// Rests on: nothing.

/// No posting has this kind.
pub const NO_KIND: u8 = 255;

const MAX_DIGITS: usize = 10;
const MAX_NUMBER: u64 = 65_535;
const MAX_KIND: u64 = 3;
const MAX_ACCOUNT: u64 = 255;
const MAX_AMOUNT: u64 = 4_294_967_295;

/// The fields of a posting, without its number.
#[derive(Clone, Copy, PartialEq, Eq)]
pub struct Fields {
    pub amount: u32,
    pub kind: u8,
    pub a: u8,
    pub b: u8,
}

/// In place of the fields of a number that has no posting.
pub const NO_POSTING: Fields = Fields {
    amount: 0,
    kind: NO_KIND,
    a: 0,
    b: 0,
};

/// What a line says.
pub enum Line {
    Malformed,
    Number(u16),
    Posting(u16, Fields),
}

/// The lines from a place of a file on.
pub struct Lines<'a> {
    text: &'a [u8],
    at: usize,
}

/// The number of the first line that is no heading.
pub fn top(text: &[u8]) -> u32 {
    1 + u32::from(text.first().is_some_and(u8::is_ascii_alphabetic))
}

impl<'a> Lines<'a> {
    /// All lines but a heading.
    pub fn of(text: &'a [u8]) -> Lines<'a> {
        let mut lines = Lines { text, at: 0 };
        if top(text) > 1 {
            lines.skip_line();
        }
        lines
    }

    /// Goes on behind the next line feed.
    fn skip_line(&mut self) {
        let rest = &self.text[self.at..];
        let found = rest.iter().position(|&byte| byte == b'\n');
        self.at += found.unwrap_or(rest.len()) + 1;
    }

    /// The next byte; the end of the file ends a line too.
    fn byte(&self) -> u8 {
        self.text.get(self.at).copied().unwrap_or(b'\n')
    }

    /// Decimal digits without a leading zero, up to the most.
    #[inline(always)]
    fn number(&mut self, most: u64) -> Option<u64> {
        let rest = &self.text[self.at..];
        let mut value: u64 = 0;
        let mut count = 0;
        while let Some(byte) = rest.get(count).filter(|byte| byte.is_ascii_digit()) {
            value = value.wrapping_mul(10).wrapping_add((byte - b'0').into());
            count += 1;
        }
        self.at += count;
        let bare = count == 1 || count > 1 && rest[0] != b'0';
        (bare && count <= MAX_DIGITS && value <= most).then_some(value)
    }

    fn comma(&mut self) -> Option<()> {
        if self.byte() != b',' {
            return None;
        }
        self.at += 1;
        Some(())
    }

    fn word<const N: usize>(&mut self, word: &[u8; N], kind: u8) -> Option<u8> {
        if self.text[self.at..].first_chunk() != Some(word) {
            return None;
        }
        self.at += N;
        Some(kind)
    }

    fn kind(&mut self) -> Option<u8> {
        match self.byte() {
            b'T' => self.word(b"TRADE", 0),
            b'R' => self.word(b"RATE", 1),
            b'C' => self.word(b"CALL", 2),
            b'N' => self.word(b"NET", 3),
            _ => self.number(MAX_KIND).map(|kind| kind as u8),
        }
    }

    /// LF, or CR LF, or the end of the file; a CR ahead of that ends no line.
    fn end(&mut self) -> Option<()> {
        let returned = self.byte() == b'\r' && self.text.get(self.at + 1) == Some(&b'\n');
        self.at += usize::from(returned);
        if self.byte() != b'\n' {
            return None;
        }
        self.at += 1;
        Some(())
    }

    fn fields(&mut self) -> Option<Fields> {
        let kind = self.kind()?;
        self.comma()?;
        let a = self.number(MAX_ACCOUNT)? as u8;
        self.comma()?;
        let b = self.number(MAX_ACCOUNT)? as u8;
        self.comma()?;
        let amount = self.number(MAX_AMOUNT)? as u32;
        Some(Fields { amount, kind, a, b })
    }

    /// A line up to its end; where it is malformed, up to what shows that.
    fn line(&mut self) -> Option<Line> {
        let x = self.number(MAX_NUMBER)? as u16;
        if self.comma().is_none() {
            self.end()?;
            return Some(Line::Number(x));
        }
        let fields = self.fields()?;
        self.end()?;
        Some(Line::Posting(x, fields))
    }
}

impl Iterator for Lines<'_> {
    type Item = Line;

    fn next(&mut self) -> Option<Line> {
        if self.at >= self.text.len() {
            return None;
        }
        let line = self.line();
        if line.is_none() {
            self.skip_line();
        }
        Some(line.unwrap_or(Line::Malformed))
    }
}
