// Holds: a way to write a call_changed that is wrong in one thing, and to see that the comparison finds it out.
// Rests on: programs, the model.
#![allow(dead_code)]

use model::numbers::NUMBERS;
use programs::changed::compare_changed;
use programs::programs::{CallsChanged, Programs, MODEL};
use programs::short::SHORT;
use programs::stack::on_large_stack;
use std::cell::Cell;

/// What call_changed is given, for changing it before or after the model does the work.
pub struct Given<'a> {
    pub input: Vec<u8>,
    pub place: u64,
    pub value: u64,
    pub event: Vec<u8>,
    pub limit: u64,
    pub figures: &'a mut [i64],
    pub board: &'a mut [u64],
}

impl Given<'_> {
    pub fn model(&mut self) -> u64 {
        (MODEL.call_changed)(
            &self.input,
            self.place,
            self.value,
            &self.event,
            self.limit,
            self.figures,
            self.board,
        )
    }

    /// The model's answer, after which something is changed.
    pub fn then(&mut self, change: impl FnOnce(&mut Self, u64)) -> u64 {
        let answer = self.model();
        change(self, answer);
        answer
    }

    pub fn code(&self) -> Option<u8> {
        self.event.first().copied()
    }

    /// Whether it is an event of ten bytes that may be cut.
    pub fn may_be_cut(&self) -> bool {
        matches!(self.event[..], [1 | 2 | 4, _, _, _, _, _, _, _, _, _])
    }

    /// Whether a number is to be replaced.
    pub fn changes(&self) -> bool {
        self.place < NUMBERS as u64
    }
}

pub type Wrong = fn(&mut Given) -> u64;

thread_local! {
    static WRONG: Cell<Wrong> = const { Cell::new(|given| given.model()) };
}

/// Does what the wrong program at hand does.
fn call_wrong(
    input: &[u8],
    place: u64,
    value: u64,
    event: &[u8],
    limit: u64,
    figures: &mut [i64],
    board: &mut [u64],
) -> u64 {
    WRONG.get()(&mut Given {
        input: input.to_vec(),
        place,
        value,
        event: event.to_vec(),
        limit,
        figures,
        board,
    })
}

/// The difference that a comparison on some files of each sort finds first must have this in its words.
pub fn found_in(call_changed: CallsChanged, words: &str) {
    on_large_stack(|| find(call_changed, words));
}

fn find(call_changed: CallsChanged, words: &str) {
    let programs = Programs {
        call_changed,
        ..MODEL
    };
    let files = (0..200).flat_map(|k| SHORT.iter().map(move |sort| (sort, k)));
    let mut causes = files.filter_map(|(sort, k)| compare_changed(&programs, 3, sort, k).err());
    let cause = causes.next().expect("a difference is found");
    assert!(cause.contains(words), "{words}: {cause}");
}

pub fn found(wrong: Wrong, words: &str) {
    on_large_stack(|| {
        WRONG.set(wrong);
        find(call_wrong, words);
    });
}
