// Holds: the sides of the comparison, the calls that are timed, and the comparison with the model before that.
// Rests on: cases; the programs of tests/programs, the model, the plain twin.

use crate::cases::Case;
use model::prng::Prng;
use model::runfile::EVENT;
use model::{FIGURES, MAX_EVENTS, SITES};
use programs::programs::{Drains, Programs, FILLED, MODEL};
use std::hint::black_box;
use text::statement::DRAIN;

const SEED: u64 = 1;

/// Longer than what any run file makes `board` print.
const TEXT: usize = 1 << 16;

pub struct Side {
    pub name: &'static str,
    programs: Programs,
    /// The model prints a text of its own, which is not copied into a slice.
    prints: bool,
}

const OF_MODEL: Side = Side {
    name: "model",
    programs: MODEL,
    prints: true,
};

#[cfg(feature = "model-only")]
pub static SIDES: [Side; 1] = [OF_MODEL];

#[cfg(not(feature = "model-only"))]
pub static SIDES: [Side; 3] = [
    OF_MODEL,
    Side {
        name: "twin",
        programs: Programs {
            run_file: plain::run_file,
            run_drain: plain::run_drain,
            run_events: plain::run_events,
            // The twin has no calls by value.
            ..MODEL
        },
        prints: false,
    },
    Side {
        name: PROVED,
        programs: programs::proved::PROVED,
        prints: false,
    },
];

/// The side whose speed is set against those of the others.
pub const PROVED: &str = "proved";

impl Side {
    /// A call that does all that `board` does with a run file.
    pub fn on_file<'a>(&self, input: &'a [u8]) -> Box<dyn FnMut() + 'a> {
        if self.prints {
            return Box::new(|| {
                black_box(model::run(black_box(input)));
            });
        }
        let run_file = self.programs.run_file;
        let mut out = vec![0; TEXT];
        Box::new(move || {
            black_box(run_file(black_box(input), &mut out));
        })
    }

    /// A call that plays a run file, drains the board to quiet, and fills in the books of all sites.
    pub fn on_drain<'a>(&self, input: &'a [u8]) -> Box<dyn FnMut() + 'a> {
        Side::draining(self.programs.run_drain, input)
    }

    /// The same by calls that take the board by value.
    pub fn by_value<'a>(&self, input: &'a [u8]) -> Box<dyn FnMut() + 'a> {
        Side::draining(self.programs.run_by_value, input)
    }

    /// A drain of the board that the file leaves, by value, with the board handed back.
    pub fn changed<'a>(&self, input: &'a [u8]) -> Box<dyn FnMut() + 'a> {
        let call_changed = self.programs.call_changed;
        let mut board = vec![0; FILLED];
        Box::new(move || {
            let drain = [0; EVENT];
            black_box(call_changed(
                input,
                u64::MAX,
                0,
                &drain,
                DRAIN,
                &mut [],
                &mut board,
            ));
        })
    }

    fn draining(run_drain: Drains, input: &[u8]) -> Box<dyn FnMut() + '_> {
        let mut out = vec![0; FIGURES * SITES];
        Box::new(move || {
            black_box(run_drain(black_box(input), DRAIN, &mut out));
        })
    }

    /// A call that decodes a run file and does its events.
    pub fn on_events<'a>(&self, input: &'a [u8]) -> Box<dyn FnMut() + 'a> {
        let run_events = self.programs.run_events;
        let mut numbers = vec![0; MAX_EVENTS];
        Box::new(move || {
            black_box(run_events(black_box(input), &mut numbers));
        })
    }

    /// Ends the benchmark if this side does not answer as the model does.
    pub fn check(&self, case: &Case) {
        for input in [&case.carried, &case.offered] {
            let compared = programs::compare::compare(&self.programs, input, &mut Prng::new(SEED));
            if let Err(cause) = compared {
                panic!("{}, {} sites: {cause}", self.name, case.n);
            }
        }
    }
}
