// Holds: the parts of the plain twin of the proved engine, its four functions, what it adds for a call, the twin of the audit, and that of the program `audit`.
// Rests on: document 01 (what the board does), document 02 (what a look-up does), docs/FORMATS.md (what an audit answers, what `audit` reads and prints); nothing else.
//
// The design is that of the proved engine: a board is a few flat arrays that every event works on in place; C(m)
// comes from an index of the postings by account and kind; a set of what each record has makes delivery a test of
// a bit; a drain keeps a floor below which nothing is left to receive. All of it is safe Rust with its bounds
// checked. Boards come from a start and from events alone, so nothing is judged that these cannot bring about.

#![forbid(unsafe_code)]

mod arrays;
pub mod audit;
mod books;
mod call;
mod drain;
mod events;
pub mod files;
mod index;
mod judge;
mod lookup;
mod mask;
mod program;
mod receipts;
mod runfile;
mod set;
mod text;

pub use books::called;
pub use program::{run_drain, run_events, run_file, run_lookup, NONE};
