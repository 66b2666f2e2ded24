// Holds: programs held to the model on one run file: the text printed, the numbers of answers, and drains with the books after them.
// Rests on: programs, files, stack; the model's generator of numbers.

use crate::files::{numbers, Sort};
use crate::programs::{Drains, Programs, MODEL, NONE};
use crate::stack::on_large_stack;
use model::prng::Prng;
use model::{FIGURES, SITES};
use text::statement::DRAIN;

/// What stands in lent slices beforehand.
const BYTE: u8 = 0xA5;
const NUMBER: i64 = -0x5A5A_5A5A;

/// Room for the books of as many sites as there can be, and a little more.
const ROOM: usize = FIGURES * SITES + 3;

/// By value every event may judge the whole board: files with more events than this are run so once.
const LONG: usize = 200;

/// What was compared: files, events of those whose start is accepted, and events that drains to quiet did.
#[derive(Clone, Copy, Debug, Default, PartialEq, Eq)]
pub struct Compared {
    pub files: u64,
    pub events: u64,
    pub drained: u64,
}

/// Compares on one file; the numbers drawn choose room and limits. The error says where the two differ.
pub fn compare(programs: &Programs, input: &[u8], rng: &mut Prng) -> Result<Compared, String> {
    let text = model::run(input);
    let spare = rng.pick(&[0, 0, 1, 40]);
    same_text(programs, input, &text, spare)?;
    no_room(programs, input, rng.below(text.len() as u64) as usize)?;
    let events = text.lines().filter(|line| line.starts_with('E')).count();
    same_numbers(programs, input, events + spare)?;
    same_numbers(programs, input, events.saturating_sub(1))?;
    let drained = same_drain(programs, input, DRAIN, ROOM)?;
    same_by_value(programs, input, DRAIN, ROOM)?;
    let mut done = Compared {
        files: 1,
        ..Compared::default()
    };
    if drained == NONE {
        return Ok(done);
    }
    let part = rng.below(drained + 1);
    let limit = rng.pick(&[0, 1, part, part, drained, u64::MAX]);
    same_drain(programs, input, limit, ROOM)?;
    let whole = FIGURES * usize::from(input[5]);
    let short = rng.below(whole as u64) as usize;
    let room = rng.pick(&[whole, whole - 1, short]);
    same_drain(programs, input, limit.min(1), room)?;
    if events <= LONG {
        same_by_value(programs, input, limit, ROOM)?;
        same_by_value(programs, input, limit.min(1), room)?;
    }
    done.events = events as u64;
    done.drained = drained;
    Ok(done)
}

/// The text byte for byte, in a slice that has room for it and so much more.
fn same_text(programs: &Programs, input: &[u8], text: &str, spare: usize) -> Result<(), String> {
    let mut out = vec![BYTE; text.len() + spare];
    let answer = (programs.run_file)(input, &mut out);
    if answer != text.len() as u64 {
        let length = text.len();
        return Err(format!("run_file answers {answer}, the model {length}"));
    }
    let (written, rest) = out.split_at(text.len());
    if let Some(at) = (0..text.len()).find(|&at| written[at] != text.as_bytes()[at]) {
        let line = text[..at].lines().count().max(1);
        return Err(format!("run_file differs at byte {at}, about line {line}"));
    }
    if rest.iter().any(|&byte| byte != BYTE) {
        return Err("run_file writes past its text".to_string());
    }
    Ok(())
}

fn no_room(programs: &Programs, input: &[u8], room: usize) -> Result<(), String> {
    let mut out = vec![BYTE; room];
    match (programs.run_file)(input, &mut out) {
        NONE => Ok(()),
        answer => Err(format!("run_file answers {answer} in {room} bytes")),
    }
}

/// The count and the whole slice, in which the numbers are and the rest stays.
fn same_numbers(programs: &Programs, input: &[u8], room: usize) -> Result<(), String> {
    let mut wanted = vec![BYTE; room];
    let count = (MODEL.run_events)(input, &mut wanted);
    let mut out = vec![BYTE; room];
    let answer = (programs.run_events)(input, &mut out);
    if answer != count {
        return Err(format!(
            "run_events with room {room} answers {answer}, the model {count}"
        ));
    }
    match (0..room).find(|&at| out[at] != wanted[at]) {
        Some(at) => Err(format!("run_events differs at event {at}")),
        None => Ok(()),
    }
}

fn same_drain(programs: &Programs, input: &[u8], limit: u64, room: usize) -> Result<u64, String> {
    same_books("run_drain", programs.run_drain, input, limit, room)
}

fn same_by_value(
    programs: &Programs,
    input: &[u8],
    limit: u64,
    room: usize,
) -> Result<u64, String> {
    same_books("run_by_value", programs.run_by_value, input, limit, room)
}

/// The count, which is returned, and the whole slice, in which the books are and the rest stays.
fn same_books(
    name: &str,
    drains: Drains,
    input: &[u8],
    limit: u64,
    room: usize,
) -> Result<u64, String> {
    let mut wanted = vec![NUMBER; room];
    let count = (MODEL.run_drain)(input, limit, &mut wanted);
    let mut out = vec![NUMBER; room];
    let answer = drains(input, limit, &mut out);
    let at_limit = format!("{name} with limit {limit} and room {room}");
    if answer != count {
        return Err(format!("{at_limit} answers {answer}, the model {count}"));
    }
    if let Some(at) = (0..room).find(|&at| out[at] != wanted[at]) {
        let (is, was) = (out[at], wanted[at]);
        return Err(format!("{at_limit} has {is} at {at}, the model {was}"));
    }
    Ok(count)
}

/// Compares on all files of one sort. The error names the file too, so that it can be made anew.
pub fn compare_sort(programs: &Programs, seed: u64, sort: &Sort) -> Result<Compared, String> {
    on_large_stack(|| compare_files(programs, seed, sort))
}

fn compare_files(programs: &Programs, seed: u64, sort: &Sort) -> Result<Compared, String> {
    let mut total = Compared::default();
    for k in 0..sort.count {
        let mut rng = numbers(seed, sort, k);
        let file = sort.file(&mut rng, k);
        let done = compare(programs, &file, &mut rng)
            .map_err(|cause| format!("{}, file {k} of seed {seed}: {cause}", sort.name))?;
        total.files += done.files;
        total.events += done.events;
        total.drained += done.drained;
    }
    Ok(total)
}
