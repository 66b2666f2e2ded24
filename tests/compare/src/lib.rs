// Holds: the model's field rule, conflicts, effects and books compared with the proved code, suite by suite.
// Rests on: the static library of the proved crate exports, and the model.

pub mod books;
pub mod conflicts;
pub mod effects;
pub mod inputs;
pub mod proved;
pub mod tally;

use tally::Suite;

pub static FIELDS: Suite = Suite::new("fields", conflicts::fields);
pub static MATRICES: Suite = Suite::new("matrices", conflicts::matrices);
pub static CONFLICTS: Suite = Suite::new("conflicts", conflicts::conflicts);
pub static CONFLICT_SETS: Suite = Suite::new("conflict sets", conflicts::conflict_sets);
pub static CALLS: Suite = Suite::new("sizes of calls", effects::calls);
pub static EFFECTS: Suite = Suite::new("effects", effects::effects);
pub static BOOKS: Suite = Suite::new("books of a record", books::books);
pub static BOOKS_OF_ALL: Suite = Suite::new("books of sites", books::books_of_all);
pub static BOOKS_OF_BOARDS: Suite = Suite::new("books of boards", books::books_of_boards);

/// Conflicts, effects and books: what is to be compared on 100,000 inputs.
pub static COUNTED: [&Suite; 7] = [
    &CONFLICTS,
    &CONFLICT_SETS,
    &CALLS,
    &EFFECTS,
    &BOOKS,
    &BOOKS_OF_ALL,
    &BOOKS_OF_BOARDS,
];
