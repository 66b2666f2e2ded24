// Holds: the program `model-board`: a run file on standard input, its answers on standard output.
// Rests on: program.

use std::io::{Read, Write};

fn main() -> std::io::Result<()> {
    let mut input = Vec::new();
    std::io::stdin().lock().read_to_end(&mut input)?;
    std::io::stdout().write_all(model::run(&input).as_bytes())
}
