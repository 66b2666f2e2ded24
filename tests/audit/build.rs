// Holds: which proved crate this package links.
// Rests on: ../library.rs.

include!("../library.rs");

fn main() {
    link("exports");
}
