// Holds: the numbers that a C header names, and those that a file of the proved crates names.
// Rests on: nothing.

/// A number in base ten, with or without marks between its digits.
fn number(text: &str) -> Option<u64> {
    let text = text.trim().trim_end_matches(';').replace('_', "");
    text.parse().ok()
}

/// The names that a header defines as a number, or as 64 bits of one; a name defined as a term of others is left out.
pub fn of_header(text: &str) -> Vec<(String, u64)> {
    let defined = text.lines().filter_map(|line| {
        let (name, value) = line.strip_prefix("#define ")?.split_once(' ')?;
        let value = value.trim_start_matches("UINT64_C(").trim_end_matches(')');
        Some((name.to_string(), number(value)?))
    });
    defined.collect()
}

/// The number that a line of a source gives to a name.
pub fn of_source(text: &str, name: &str) -> Option<u64> {
    text.lines().find_map(|line| {
        let (left, right) = line.split_once(" = ")?;
        let mut words = left.split(|c: char| !c.is_alphanumeric() && c != '_');
        words.any(|word| word == name).then(|| number(right))?
    })
}
