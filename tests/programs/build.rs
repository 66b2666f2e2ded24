// Holds: which proved crate this package links, unless model-only.
// Rests on: ../library.rs.

include!("../library.rs");

fn main() {
    if env::var_os("CARGO_FEATURE_MODEL_ONLY").is_none() {
        link("exports");
    }
}
