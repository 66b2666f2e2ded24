// Holds: a run file made from its text form, or the first line that is wrong, and why.
// Rests on: words; the model's run files.

use crate::words::{Words, AMOUNT, BYTE, FORMS, KINDS, MATRIX};
use model::{encode, Call, Run, MAX_EVENTS};
use std::fmt;

/// What is wrong, at a line counted from 1. A text that ends too early is wrong at the line after its last.
#[derive(Clone, Debug, PartialEq, Eq)]
pub struct Fault {
    pub line: usize,
    pub cause: String,
}

impl fmt::Display for Fault {
    fn fmt(&self, to: &mut fmt::Formatter) -> fmt::Result {
        write!(to, "line {}: {}", self.line, self.cause)
    }
}

pub fn assemble(text: &str) -> Result<Vec<u8>, Fault> {
    let after = text.lines().count() + 1;
    let numbered = (1..).zip(text.lines().map(Words::of));
    let mut lines = numbered.filter(|(_, words)| !words.is_empty());
    let mut head = |name: &str, most| header(lines.next(), after, name, most);
    let n = head("sites", BYTE)? as u8;
    let f = head("crashes", BYTE)? as u8;
    let matrix = head("matrix", MATRIX)? as u16;
    let mut calls = Vec::new();
    for (line, mut words) in lines {
        let at_line = |cause| Fault { line, cause };
        if calls.len() == MAX_EVENTS {
            return Err(at_line(format!("there are more than {MAX_EVENTS} events")));
        }
        calls.push(event(&mut words).map_err(at_line)?);
    }
    let run = Run {
        n,
        f,
        matrix,
        calls,
    };
    Ok(encode(&run).expect("no number is larger than its field"))
}

/// The number of one of the first three lines.
fn header(next: Option<(usize, Words)>, after: usize, name: &str, most: u64) -> Result<u64, Fault> {
    let Some((line, mut words)) = next else {
        let cause = format!("the text ends where `{name}` should stand");
        return Err(Fault { line: after, cause });
    };
    let mut read = || {
        words.expect(name)?;
        let number = words.number(name, most)?;
        words.end()?;
        Ok(number)
    };
    read().map_err(|cause| Fault { line, cause })
}

fn event(words: &mut Words) -> Result<Call, String> {
    let call = match words.word("an event")? {
        "offer" => offer(words)?,
        "receive" => receive(words)?,
        "order" => Call::Order {
            posting: words.number("the posting", BYTE)?,
        },
        "read" => Call::Read {
            site: words.number("the site", BYTE)?,
            cut: words.cut()?,
        },
        "crash" => Call::Crash {
            site: words.number("the site", BYTE)?,
        },
        word => {
            let known = "offer, receive, order, read or crash";
            return Err(format!("`{word}` is no event: {known} should stand here"));
        }
    };
    words.end()?;
    Ok(call)
}

fn offer(words: &mut Words) -> Result<Call, String> {
    Ok(Call::Offer {
        site: words.number("the site", BYTE)?,
        kind: words.named("the kind", &KINDS, BYTE)?,
        a: words.number("account a", BYTE)?,
        b: words.number("account b", BYTE)?,
        amount: words.number("the amount", AMOUNT)?,
        cut: words.cut()?,
    })
}

fn receive(words: &mut Words) -> Result<Call, String> {
    let form = words.named("the form", &FORMS, BYTE)?;
    let posting = words.number("the posting", BYTE)?;
    words.expect("from")?;
    let from = words.number("the sender", BYTE)?;
    words.expect("to")?;
    let to = words.number("the receiver", BYTE)?;
    Ok(Call::Receive {
        form,
        posting,
        from,
        to,
        cut: words.cut()?,
    })
}
