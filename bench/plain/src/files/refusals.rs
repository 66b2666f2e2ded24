// Holds: refusals, and the report of one.
// Rests on: nothing.

/// A line of a file; file 0 holds the postings, file p + 1 is site p's.
#[derive(Clone, Copy, Default)]
pub struct Place {
    pub file: u32,
    pub line: u32,
}

/// A refusal at a place, with the posting that it names and the place where that stands. Of a file that is too long the posting is 1.
#[derive(Clone, Copy, Default)]
pub struct Refused {
    pub code: u8,
    pub place: Place,
    pub number: u16,
    pub other: Place,
}

impl Refused {
    pub fn only(code: u8) -> Refused {
        Refused {
            code,
            ..Refused::default()
        }
    }
}

fn file(number: u32) -> String {
    match number {
        0 => "the postings' file".into(),
        _ => format!("site {}'s file", number - 1),
    }
}

fn line(place: Place) -> String {
    format!("{}, line {}", file(place.file), place.line)
}

fn reason(r: &Refused) -> String {
    let posting = format!("posting {}", r.number);
    match r.code {
        4 => "not number,kind,a,b,amount, nor, in a record beside a file of postings, a number."
            .into(),
        5 => format!("{posting} has fields outside the row of its kind."),
        7 => format!("{posting} is not in the postings' file."),
        8 => format!("{posting} has other fields in {}.", line(r.other)),
        _ => format!("{posting} stands on line {} already.", r.other.line),
    }
}

/// The report of a refusal.
pub fn refused(r: &Refused) -> String {
    let said = match (r.code, r.number) {
        (1, _) => "There must be one to seven records.".into(),
        (2, _) => "The matrix must be symmetric and have the fixed pairs.".into(),
        (3, 0) => format!("This file cannot be read: {}.", file(r.place.file)),
        (3, _) => format!(
            "This file has 2097152 bytes or more: {}.",
            file(r.place.file)
        ),
        _ => format!("In {}: {}", line(r.place), reason(r)),
    };
    format!("NOT AUDITED {}\n{said}\n", r.code)
}
