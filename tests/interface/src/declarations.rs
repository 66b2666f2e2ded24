// Holds: the declarations that a C header has, and those that a crate's exported functions come to in C, as text of one layout.
// Rests on: nothing.

/// Words parted by one space; a star or a bracket stands at its word.
fn laid_out(text: &str) -> String {
    let words: Vec<_> = text.split_whitespace().collect();
    words.join(" ").replace("* ", "*").replace("( ", "(")
}

/// The text without what stands between the two marks.
fn without(text: &str, from: &str, to: &str) -> String {
    let mut parts = text.split(from);
    let first = parts.next().unwrap_or_default().to_string();
    parts.fold(first, |kept, part| {
        let (_, rest) = part.split_once(to).unwrap_or_default();
        kept + rest
    })
}

/// The declarations of a header: what is left of it without comments, without what C++ alone sees, and without other
/// lines of the preprocessor.
pub fn of_header(text: &str) -> Vec<String> {
    let plain = without(text, "/*", "*/");
    let plain = without(&plain, "#ifdef __cplusplus", "#endif");
    let lines = plain.lines().filter(|line| !line.starts_with('#'));
    let code: Vec<_> = lines.collect();
    let code = code.join("\n");
    let (declarations, rest) = code.rsplit_once(';').unwrap_or(("", &code));
    assert_eq!(rest.trim(), "", "each declaration ends in a semicolon");
    declarations.split(';').map(laid_out).collect()
}

/// The type in C of a number or a truth value.
fn plain_type(name: &str) -> &str {
    match name {
        "u8" => "uint8_t",
        "u16" => "uint16_t",
        "u32" => "uint32_t",
        "u64" => "uint64_t",
        "i64" => "int64_t",
        "usize" => "size_t",
        "bool" => "bool",
        other => panic!("no type in C for {other}"),
    }
}

/// A slice is a pointer and a length, and the pointer is to constants unless the slice is lent to be written.
fn parameter(text: &str) -> String {
    let (name, kind) = text.split_once(": ").expect("a parameter has a type");
    let of_slice = |from| kind.strip_prefix(from).and_then(|of| of.strip_suffix(']'));
    if let Some(of) = of_slice("&mut [") {
        format!("{} *{name}, size_t {name}_length", plain_type(of))
    } else if let Some(of) = of_slice("&[") {
        format!("const {} *{name}, size_t {name}_length", plain_type(of))
    } else {
        format!("{} {name}", plain_type(kind))
    }
}

/// The declaration in C of the function whose signature the text begins with.
fn declared(text: &str) -> String {
    let (name, rest) = text.split_once('(').expect("a function has parameters");
    let (parameters, rest) = rest.split_once(')').expect("the parameters end");
    let result = rest.split_whitespace().nth(1).expect("it has a result");
    let parameters = parameters.split(',').map(str::trim);
    let parameters: Vec<_> = parameters.filter(|text| !text.is_empty()).collect();
    let parameters: Vec<_> = parameters.into_iter().map(parameter).collect();
    format!("{} {name}({})", plain_type(result), parameters.join(", "))
}

/// What starts an exported function.
pub const EXPORTED: &str = "#[unsafe(no_mangle)]\npub extern \"C\" fn ";

/// The declarations that the exported functions of a crate's source come to.
pub fn of_source(text: &str) -> Vec<String> {
    text.split(EXPORTED).skip(1).map(declared).collect()
}

/// The declarations that only one of the two has.
pub fn differences(header: &str, source: &str) -> Vec<String> {
    let (header, source) = (of_header(header), of_source(source));
    let only = |these: &[String], those: &[String]| -> Vec<String> {
        let these = these.iter().filter(|one| !those.contains(one));
        these.cloned().collect()
    };
    [only(&header, &source), only(&source, &header)].concat()
}
