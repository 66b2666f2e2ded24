// Holds: the comparison passes programs that answer as the model does, and finds out those that do not.
// Rests on: programs.

use programs::compare::{compare, compare_sort};
use programs::files::{numbers, SORTS};
use programs::programs::{Programs, MODEL, NONE};
use programs::stack::on_large_stack;
use text::statement::DRAIN;

/// The first sorts, which have by far the most events, are left to the comparison itself.
#[test]
fn the_model_agrees_with_itself() {
    for sort in &SORTS[2..] {
        let done = compare_sort(&MODEL, 2, sort).unwrap();
        assert_eq!(done.files, sort.count as u64);
    }
}

/// Whether a comparison on some mixed runs finds a difference that has this in its words.
fn found(programs: Programs, words: &str) {
    let sort = &SORTS[0];
    let cause = on_large_stack(|| {
        (0..60).find_map(|k| {
            let mut rng = numbers(3, sort, k);
            let file = sort.file(&mut rng, k);
            compare(&programs, &file, &mut rng).err()
        })
    });
    let cause = cause.expect("a difference is found");
    assert!(cause.contains(words), "{cause}");
}

#[test]
fn wrong_texts_are_found() {
    let with = |run_file| Programs { run_file, ..MODEL };
    let short = |input: &[u8], out: &mut [u8]| (MODEL.run_file)(input, out) - 1;
    found(with(short), "run_file answers");
    let wrong = |input: &[u8], out: &mut [u8]| {
        let answer = (MODEL.run_file)(input, out);
        out[answer as usize / 2] ^= 1;
        answer
    };
    found(with(wrong), "run_file differs");
    let past = |input: &[u8], out: &mut [u8]| {
        let answer = (MODEL.run_file)(input, out);
        if let Some(byte) = out.get_mut(answer as usize) {
            *byte = 0;
        }
        answer
    };
    found(with(past), "past its text");
    let cramped = |input: &[u8], out: &mut [u8]| match (MODEL.run_file)(input, out) {
        NONE => out.len() as u64,
        answer => answer,
    };
    found(with(cramped), "in ");
}

#[test]
fn wrong_drains_are_found() {
    let with = |run_drain| Programs { run_drain, ..MODEL };
    let count = |input: &[u8], limit, out: &mut [i64]| {
        (MODEL.run_drain)(input, limit, out).saturating_add(1)
    };
    found(with(count), "answers");
    let figure = |input: &[u8], limit, out: &mut [i64]| {
        let answer = (MODEL.run_drain)(input, limit, out);
        out[64] += 1;
        answer
    };
    found(with(figure), "at 64");
    let early = |input: &[u8], limit: u64, out: &mut [i64]| {
        let done = (MODEL.run_drain)(input, limit / 64, out);
        done.max(limit.min(DRAIN))
    };
    found(with(early), "answers");
    let past = |input: &[u8], limit, out: &mut [i64]| {
        let answer = (MODEL.run_drain)(input, limit, out);
        *out.last_mut().unwrap() = 0;
        answer
    };
    found(with(past), "at 450");
}

#[test]
fn wrong_drains_by_value_are_found() {
    let with = |run_by_value| Programs {
        run_by_value,
        ..MODEL
    };
    let none = |_: &[u8], _, _: &mut [i64]| NONE;
    found(
        with(none),
        &format!("run_by_value with limit {DRAIN} and room 451 answers"),
    );
    let figure = |input: &[u8], limit, out: &mut [i64]| {
        let answer = (MODEL.run_drain)(input, limit, out);
        if let Some(figure) = out.get_mut(64) {
            *figure += 1;
        }
        answer
    };
    found(with(figure), "run_by_value with");
    let early =
        |input: &[u8], limit: u64, out: &mut [i64]| (MODEL.run_drain)(input, limit.max(1), out);
    found(with(early), "run_by_value with limit 0");
    let cramped = |input: &[u8], limit, out: &mut [i64]| match (MODEL.run_drain)(input, limit, out)
    {
        NONE if model::decode(input).is_ok() => {
            out.fill(0);
            NONE
        }
        answer => answer,
    };
    found(with(cramped), "has 0 at 0");
}

#[test]
fn wrong_numbers_are_found() {
    let with = |run_events| Programs {
        run_events,
        ..MODEL
    };
    let count =
        |input: &[u8], numbers: &mut [u8]| (MODEL.run_events)(input, numbers).saturating_sub(1);
    found(with(count), "run_events with room");
    let wrong = |input: &[u8], numbers: &mut [u8]| {
        let answer = (MODEL.run_events)(input, numbers);
        if let Some(number) = numbers.last_mut() {
            *number ^= 1;
        }
        answer
    };
    found(with(wrong), "run_events differs");
}
