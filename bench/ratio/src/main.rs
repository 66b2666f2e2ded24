// Holds: the benchmark: tables of speeds and ratios for run files, drains, events alone, calls, look-ups, audits and programs that audit files, and one of memory.
// Rests on: audits, calls, cases, sides, clock, lookups, memory, processes.
//
// All sides get the same bytes, made beforehand, in the same process, and take turns. A call has all of its work
// in it: the file is decoded, its events are done, and the text or the books are written. Slices that are lent
// are made once and not cleared between calls. Each case is compared before it is timed.

#[cfg(not(feature = "model-only"))]
mod audits;
#[cfg(not(feature = "model-only"))]
mod calls;
mod cases;
mod clock;
mod conflicts;
#[cfg(not(feature = "model-only"))]
mod filled;
#[cfg(not(feature = "model-only"))]
mod lookups;
mod memory;
#[cfg(not(feature = "model-only"))]
mod processes;
#[cfg(not(feature = "model-only"))]
mod records;
mod sides;

use cases::{cases, largest, Case};
use clock::{in_turns, Samples, Timed};
use sides::{Side, PROVED, SIDES};

/// What the figures of a side are.
#[derive(Clone, Copy)]
enum Unit {
    EventsPerSecond,
    Nanoseconds,
}

fn main() {
    let words: Vec<String> = std::env::args().skip(1).collect();
    #[cfg(not(feature = "model-only"))]
    if processes::be_twin(&words) {
        return;
    }
    if let Some(name) = words.first() {
        return memory::show_own(name);
    }
    let cases = cases();
    for side in &SIDES {
        cases.iter().for_each(|case| side.check(case));
    }
    println!("Run files: decoded, events done, text written. Events per second.\n");
    table(&cases, Unit::EventsPerSecond, |side, case| {
        (case.events, side.on_file(&case.carried))
    });
    println!("Drains: offers decoded and done, the board drained to quiet, books written. Events per second.\n");
    table(&cases, Unit::EventsPerSecond, |side, case| {
        (case.drained, side.on_drain(&case.offered))
    });
    println!("Run files without printing: decoded, events done. ns an event without printing.\n");
    table(&cases, Unit::Nanoseconds, |side, case| {
        (case.events, side.on_events(&case.carried))
    });
    #[cfg(not(feature = "model-only"))]
    calls::table();
    #[cfg(not(feature = "model-only"))]
    lookups::table();
    #[cfg(not(feature = "model-only"))]
    audits::table();
    #[cfg(not(feature = "model-only"))]
    processes::table();
    memory::table(largest(&cases));
}

/// One line a case: the best of each side; then for the proved one, against each other, the ratio
/// of the best speeds and the quartiles of the ratio turn by turn.
fn table<'a>(cases: &'a [Case], unit: Unit, timed: impl Fn(&'a Side, &'a Case) -> Timed<'a>) {
    let sides: Vec<&Side> = SIDES.iter().collect();
    header(&sides);
    for case in cases {
        let mut calls: Vec<Timed> = sides.iter().map(|side| timed(side, case)).collect();
        let Case {
            n,
            postings,
            accounts,
            ..
        } = case;
        print!("{n:3}  {postings:8}  {accounts:8}  {:6}", calls[0].0);
        let speeds = in_turns(&mut calls);
        for speed in &speeds {
            match unit {
                Unit::EventsPerSecond => print!("  {:10.0}", speed.best()),
                Unit::Nanoseconds => print!("  {:10.2}", 1e9 / speed.best()),
            }
        }
        if let Some((proved, others)) = split_proved(&sides, &speeds) {
            others.iter().for_each(|other| ratio(proved, other));
        }
        println!();
    }
    println!();
}

/// What belongs to the proved side, which is the last if it is there, and what belongs to the others.
fn split_proved<'a, T>(sides: &[&Side], each: &'a [T]) -> Option<(&'a T, &'a [T])> {
    each.split_last()
        .filter(|_| sides.last().is_some_and(|side| side.name == PROVED))
}

fn header(sides: &[&Side]) {
    print!("  n  postings  accounts  events");
    for side in sides {
        print!("  {:>10}", side.name);
    }
    if let Some((proved, others)) = split_proved(sides, sides) {
        for other in others {
            let name = format!("{}/{}", proved.name, other.name);
            print!("  {name:>12}    from      to");
        }
    }
    println!();
}

fn ratio(above: &Samples, below: &Samples) {
    show_ratio(above.best() / below.best(), &Samples::ratio(above, below));
}

/// The ratio of the best, and the quartiles turn by turn.
fn show_ratio(best: f64, turns: &Samples) {
    let (low, high) = turns.quartiles();
    print!("  {best:12.3}  {low:6.3}  {high:6.3}");
}
