// Holds: the program `disassemble`: a run file on standard input, its text on standard output.
// Rests on: disassemble, filter.

use std::process::ExitCode;

fn main() -> ExitCode {
    text::filter::filter(|input| text::disassemble(input).map(String::into_bytes))
}
