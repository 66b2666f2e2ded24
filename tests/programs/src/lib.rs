// Holds: the parts of this package: run files made by seed, and the comparison of two programs on them.
// Rests on: the model and its text package; unless model-only, the static library of the proved crate exports.

pub mod accounts;
pub mod aimed;
pub mod called;
pub mod carried;
pub mod changed;
pub mod changed_lookups;
pub mod changes;
pub mod compare;
pub mod counts;
pub mod damage;
pub mod enough;
pub mod files;
pub mod full;
pub mod ground;
pub mod looked;
pub mod lookups;
pub mod met;
pub mod outcome;
pub mod pairs;
pub mod programs;
#[cfg(not(feature = "model-only"))]
pub mod proved;
pub mod questions;
pub mod short;
pub mod shown;
pub mod stack;
pub mod untaken;
