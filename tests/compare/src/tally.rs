// Holds: suites of comparisons, each run once, with the count of its inputs and of those answered yes.
// Rests on: nothing.

use std::fmt::Debug;
use std::sync::OnceLock;

/// Counts inputs, and those answered by yes or done. One on which the two disagree ends the run and is shown.
#[derive(Clone, Copy, Default)]
pub struct Tally {
    pub inputs: u64,
    pub yes: u64,
}

impl Tally {
    pub fn same<T: PartialEq + Debug>(
        &mut self,
        yes: bool,
        proved: T,
        model: T,
        input: impl FnOnce() -> String,
    ) {
        self.inputs += 1;
        self.yes += u64::from(yes);
        assert!(
            proved == model,
            "input {}: {}\nproved: {proved:?}\nmodel:  {model:?}",
            self.inputs,
            input()
        );
    }
}

/// Inputs for one function, the same in every run.
pub struct Suite {
    pub name: &'static str,
    run: fn(&mut Tally),
    tally: OnceLock<Tally>,
}

impl Suite {
    pub const fn new(name: &'static str, run: fn(&mut Tally)) -> Suite {
        Suite {
            name,
            run,
            tally: OnceLock::new(),
        }
    }

    /// What was compared. The first who asks runs it.
    pub fn tally(&self) -> Tally {
        *self.tally.get_or_init(|| {
            let mut tally = Tally::default();
            (self.run)(&mut tally);
            tally
        })
    }
}
