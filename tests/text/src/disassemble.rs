// Holds: the text form of a run file, or what is wrong with the file.
// Rests on: words; the model's run files.

use crate::words::{FORMS, KINDS};
use model::runfile::{EVENT, HEADER};
use model::{decode, Call, MAX_EVENTS};

/// A text that assembles to the same bytes, if the file is well formed.
pub fn disassemble(file: &[u8]) -> Result<String, String> {
    let run = decode(file).map_err(|_| flaw(file))?;
    let mut text = format!(
        "sites {}\ncrashes {}\nmatrix 0x{:04X}\n",
        run.n, run.f, run.matrix
    );
    for call in &run.calls {
        text += &line(call);
        text.push('\n');
    }
    Ok(text)
}

/// One event as a line, without the end of the line.
pub fn line(call: &Call) -> String {
    match *call {
        Call::Offer {
            site,
            kind,
            a,
            b,
            amount,
            cut,
        } => {
            let kind = name(&KINDS, kind);
            format!("offer {site} {kind} {a} {b} {amount}{}", ending(cut))
        }
        Call::Receive {
            form,
            posting,
            from,
            to,
            cut,
        } => {
            let form = name(&FORMS, form);
            let cut = ending(cut);
            format!("receive {form} {posting} from {from} to {to}{cut}")
        }
        Call::Order { posting } => format!("order {posting}"),
        Call::Read { site, cut } => format!("read {site}{}", ending(cut)),
        Call::Crash { site } => format!("crash {site}"),
    }
}

fn name(names: &[&str], number: u64) -> String {
    match names.get(number as usize) {
        Some(name) => name.to_string(),
        None => number.to_string(),
    }
}

fn ending(cut: Option<u64>) -> String {
    cut.map_or(String::new(), |j| format!(" cut {j}"))
}

/// What is wrong with a malformed file: the first part of it that is.
fn flaw(file: &[u8]) -> String {
    let Some((head, events)) = file.split_at_checked(HEADER) else {
        let length = file.len();
        return format!("the file has {length} bytes, fewer than the {HEADER} before its events");
    };
    if decode(head).is_err() {
        return "the file does not begin with the mark `RUN` and version 1".to_string();
    }
    let (events, rest) = events.as_chunks::<EVENT>();
    let wrong = |event: &[u8; EVENT]| decode(&[head, event].concat()).is_err();
    if let Some(k) = events.iter().position(wrong) {
        let (number, byte) = (k + 1, HEADER + EVENT * k);
        let causes = "its code is unknown, an unused byte is not 0, or it has a cut and may not";
        return format!("event {number}, at byte {byte}, is none: {causes}");
    }
    if !rest.is_empty() {
        return format!("the last event has {} bytes of {EVENT}", rest.len());
    }
    format!("there are {} events, more than {MAX_EVENTS}", events.len())
}
