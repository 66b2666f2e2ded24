// Holds: what the tests of the audit share: the exported functions, plain programs that say what they must answer, and records to ask of.
// Rests on: the static library of the proved crate exports; the model; the run files of tests/programs.

pub mod answer;
pub mod any;
pub mod confirm;
pub mod figures;
pub mod files;
pub mod handed;
pub mod harm;
pub mod judge;
pub mod large;
mod library;
pub mod order;
pub mod pairs;
pub mod program;
pub mod proved;
pub mod relations;
pub mod report;
pub mod rule;
pub mod runs;
pub mod written;
