// Holds: which static library is to be there, and new, when the C program is built against it.
// Rests on: ../library.rs.

include!("../library.rs");

fn main() {
    link("exports");
}
