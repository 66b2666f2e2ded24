// Holds: look-ups by value that are wrong in one thing are found out, and what programs show otherwise finds out wrong look-ups without the model.
// Rests on: programs, the model.

use model::lookup::LINE;
use model::meaning::write;
use model::numbers::{fitted, replaced, NUMBERS};
use model::row::read_sound;
use model::{Refusal, CAUSES};
use programs::changed_lookups::compare_changed;
use programs::files::{numbers, Sort, SORTS};
use programs::looked::look;
use programs::lookups::compare_file;
use programs::pairs::request;
use programs::programs::{counted, left_by, refusal_of, LooksUp, LooksUpChanged, Programs, MODEL};
use programs::short::SHORT;
use programs::shown::Shown;
use programs::stack::on_large_stack;

/// The short sorts, and runs that fill records.
fn files() -> impl Iterator<Item = (&'static Sort, usize)> {
    let sorts = || SHORT.iter().chain(&SORTS[3..5]);
    (0..150).flat_map(move |k| sorts().map(move |sort| (sort, k % sort.count)))
}

/// The difference that a comparison on changed boards finds first must have this in its words.
fn found(lookup_changed: LooksUpChanged, words: &str) {
    let programs = Programs {
        lookup_changed,
        ..MODEL
    };
    let cause = on_large_stack(|| {
        let mut causes = files().filter_map(|file| compare_changed(&programs, 3, file).err());
        causes.next().expect("a difference is found")
    });
    assert!(cause.contains(words), "{words}: {cause}");
}

/// The change forgotten, places modulo the length of a row, and a value as large as its place allows in place of one
/// modulo its width.
#[test]
fn wrong_changes() {
    found(
        |input, _, value, pairs, out| (MODEL.lookup_changed)(input, u64::MAX, value, pairs, out),
        "the model ",
    );
    found(
        |input, place, value, pairs, out| {
            (MODEL.lookup_changed)(input, place % NUMBERS as u64, value, pairs, out)
        },
        "the model ",
    );
    found(
        |input, place, value, pairs, out| {
            let most = |place| fitted(place as usize, u64::MAX);
            let value = if place < NUMBERS as u64 {
                value.min(most(place))
            } else {
                value
            };
            (MODEL.lookup_changed)(input, place, value, pairs, out)
        },
        "the model ",
    );
}

/// Answers 0 on a board that is unsound by one cause.
fn lenient<const CAUSE: usize>(
    input: &[u8],
    place: u64,
    value: u64,
    pairs: &[u8],
    out: &mut [i64],
) -> u64 {
    let answer = (MODEL.lookup_changed)(input, place, value, pairs, out);
    let mut row = vec![0; NUMBERS];
    match left_by(input) {
        Ok(before) if refusal_of(answer) == Some(6) => write(&before, &mut row),
        _ => return answer,
    }
    match read_sound(&replaced(&row, place, value)) {
        Err(cause) if cause == CAUSES[CAUSE] => 0,
        _ => answer,
    }
}

#[test]
fn unsound_boards() {
    let programs: [LooksUpChanged; CAUSES.len()] = [
        lenient::<0>,
        lenient::<1>,
        lenient::<2>,
        lenient::<3>,
        lenient::<4>,
        lenient::<5>,
        lenient::<6>,
        lenient::<7>,
        lenient::<8>,
        lenient::<9>,
        lenient::<10>,
    ];
    for program in programs {
        found(program, "answers 0, the model refusal 6");
    }
}

/// A site that is none, or the slice, judged before the board; and a slice written although the board is unsound.
#[test]
fn refusals_of_unsound_boards() {
    found(
        |input, place, value, pairs, out| {
            let answer = (MODEL.lookup_changed)(input, place, value, pairs, out);
            let none = |pair: &[u8; 2]| pair[0] > 6;
            match pairs.as_chunks().0.iter().any(none) {
                true if refusal_of(answer) == Some(6) => counted(Err(Refusal::NoSuchSite)),
                _ => answer,
            }
        },
        "answers refusal 7, the model refusal 6",
    );
    found(
        |input, place, value, pairs, out| match out.len() < LINE * (pairs.len() / 2) {
            true => counted(Err(Refusal::LookUp)),
            false => (MODEL.lookup_changed)(input, place, value, pairs, out),
        },
        "answers refusal 18, the model refusal ",
    );
    found(
        |input, place, value, pairs, out| {
            let answer = (MODEL.lookup_changed)(input, place, value, pairs, out);
            if refusal_of(answer) == Some(6) {
                out.fill(0);
            }
            answer
        },
        "the slice has 0 at 0",
    );
}

/// Places modulo the length of a row, and a refused file taken for an unsound board.
#[test]
fn nothing_replaced() {
    let past: LooksUpChanged = |input, place, value, pairs, out| {
        (MODEL.lookup_changed)(input, place % NUMBERS as u64, value, pairs, out)
    };
    let unsound: LooksUpChanged = |input, place, value, pairs, out| match left_by(input) {
        Ok(_) => (MODEL.lookup_changed)(input, place, value, pairs, out),
        Err(_) => counted(Err(Refusal::Unsound)),
    };
    for (lookup_changed, name) in [(past, "mixed runs"), (unsound, "refused starts")] {
        let programs = Programs {
            lookup_changed,
            ..MODEL
        };
        let sort = SORTS.iter().find(|sort| sort.name == name);
        let sort = sort.expect("there are files of this sort");
        let cause = on_large_stack(|| compare_file(&programs, 3, (sort, 0)).unwrap_err());
        let words = "with nothing replaced lookup_changed does not do as run_lookup";
        assert!(cause.contains(words), "{cause}");
    }
}

/// What programs show otherwise, in both ways, must find this in look-ups on some boards with long records.
fn found_by_shown(run_lookup: LooksUp, words: &str) {
    let sort = &SORTS[3];
    let check = |k| {
        let mut rng = numbers(3, sort, k);
        let file = sort.file(&mut rng, k);
        let request = request(&mut rng, file[5]);
        let is = look(&request, |pairs, out| run_lookup(&file, pairs, out));
        let shown = [
            Shown::of_file(&MODEL, &file).unwrap(),
            Shown::of_changed(&MODEL, &file, u64::MAX, 0).unwrap(),
        ];
        let [one, other] = shown.map(|shown| is.accepted().then(|| is.check(&request, &shown)));
        assert_eq!(one, other);
        one?.err()
    };
    let cause = on_large_stack(|| (0..60).find_map(check));
    let cause = cause.expect("a difference is found");
    assert!(cause.contains(words), "{words}: {cause}");
}

/// A place too many, the last line changed, which then is not that of an equal pair, and all lines changed.
#[test]
fn wrong_look_ups_are_found_without_the_model() {
    found_by_shown(
        |input, pairs, out| match (MODEL.run_lookup)(input, pairs, out) {
            count @ ..=9999 => count + 1,
            refused => refused,
        },
        " places, and not ",
    );
    found_by_shown(
        |input, pairs, out| {
            let answer = (MODEL.run_lookup)(input, pairs, out);
            let (lines, _) = out.as_chunks_mut::<LINE>();
            let last = lines.iter_mut().take(pairs.len() / 2).last();
            last.into_iter().for_each(|line| line[3] += 1);
            answer
        },
        "equal pairs ",
    );
    found_by_shown(
        |input, pairs, out| {
            let answer = (MODEL.run_lookup)(input, pairs, out);
            out.iter_mut().for_each(|number| *number += 1);
            answer
        },
        ", the books ",
    );
}
