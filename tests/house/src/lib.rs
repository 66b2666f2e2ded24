// Holds: the parts of this package.
// Rests on: std.

pub mod believed;
pub mod clauses;
pub mod functions;
pub mod headers;
pub mod laws;
pub mod names;
pub mod promises;
pub mod tree;
