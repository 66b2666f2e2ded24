// Holds: include/board.h held to the crate exports: its functions, with arguments and results, its numbers, and that it compiles.
// Rests on: interface, the sources of the proved crates, model for the numbers that they make of others.

use interface::books::{compiler, succeeded, C, CPP};
use interface::declarations::{differences, of_header, of_source, EXPORTED};
use interface::{numbers, path, text_of};
use model::numbers::NUMBERS;
use model::FIGURES;

const HEADER: &str = "include/board.h";
const SOURCE: &str = "crates/exports/src/lib.rt";

/// The header's numbers, and where the proved crates name them.
const NAMED: [(&str, &str, &str); 24] = [
    ("BOARD_SITES", "masks/src/lib.rt", "SITES"),
    ("BOARD_POSTINGS", "sets/src/lib.rt", "POSTINGS"),
    ("BOARD_WORDS", "sets/src/lib.rt", "WORDS"),
    ("BOARD_EVERY_ACCOUNT", "posting/src/lib.rt", "EVERY_ACCOUNT"),
    ("BOARD_HEADER", "decoder/src/file.rt", "HEADER"),
    ("BOARD_EVENT", "decoder/src/file.rt", "EVENT"),
    ("BOARD_EVENTS", "decoder/src/file.rt", "EVENTS"),
    ("BOARD_ROW", "by_bytes/src/bytes.rt", "ROW"),
    ("BOARD_RECORD_COUNT", "by_bytes/src/bytes.rt", "COUNT"),
    ("BOARD_PAIRS", "lookup_pairs/src/lib.rt", "PAIRS"),
    ("BOARD_LINE", "lookup_pairs/src/lib.rt", "LINE"),
    ("BOARD_DONE", "by_bytes/src/lib.rt", "DONE"),
    ("BOARD_REFUSED", "by_bytes/src/lib.rt", "REFUSED"),
    ("BOARD_NO_COUNT", "counted/src/lib.rt", "NO_COUNT"),
    ("BOARD_NO_SIZE", "by_bytes/src/lib.rt", "NO_SIZE"),
    ("BOARD_DRAIN_LIMIT", "statements/src/lib.rt", "DRAIN"),
    ("BOARD_TEXT", "runfile/proofs/Fits.antt", "buffer_length"),
    ("BOARD_AUDIT_POSTINGS", "audit_input/src/lib.rt", "POSTINGS"),
    ("BOARD_NO_KIND", "audit_input/src/lib.rt", "NO_KIND"),
    ("BOARD_AUDIT_NUMBERS", "audit_records/src/lib.rt", "NUMBERS"),
    ("BOARD_NO_ANSWER", "audit_records/src/lib.rt", "NO_ANSWER"),
    ("BOARD_CROSSED", "audit_pair/src/lib.rt", "CROSSED"),
    ("BOARD_MISSING", "audit_pair/src/lib.rt", "MISSING"),
    ("BOARD_APART", "audit_pair/src/lib.rt", "APART"),
];

/// Those that the crates make of others, and so the model has.
const MADE: [(&str, usize); 2] = [("BOARD_FIGURES", FIGURES), ("BOARD_NUMBERS", NUMBERS)];

#[test]
fn functions_are_those_of_exports() {
    let (header, source) = (text_of(HEADER), text_of(SOURCE));
    assert_eq!(differences(&header, &source), [""; 0]);
    assert_eq!(of_header(&header).len(), of_source(&source).len());
    assert!(!of_source(&source).is_empty());
}

/// Every function of the crate is exported, under a name with the prefix.
#[test]
fn exports_holds_nothing_else() {
    let source = text_of(SOURCE);
    let functions = source.matches("fn ").count();
    assert_eq!(source.matches(EXPORTED).count(), functions);
    let prefixed = format!("{EXPORTED}board_");
    assert_eq!(source.matches(&prefixed).count(), functions);
}

#[test]
fn numbers_are_those_of_the_crates() {
    let said = numbers::of_header(&text_of(HEADER));
    for (name, value) in &said {
        let named = NAMED.iter().find(|(own, ..)| own == name);
        let expected = named.map_or_else(
            || {
                let made = MADE.iter().find(|(own, _)| own == name);
                made.map(|(_, value)| *value as u64)
            },
            |(_, file, constant)| numbers::of_source(&text_of(&format!("crates/{file}")), constant),
        );
        assert_eq!(Some(*value), expected, "{name}");
    }
    assert_eq!(said.len(), NAMED.len() + MADE.len());
}

#[test]
fn header_compiles() {
    for of in [C, CPP] {
        succeeded(compiler(of).arg("-fsyntax-only").arg(path(HEADER)));
    }
}

/// A header with a name, an argument, a type or a result changed differs.
#[test]
fn wrong_headers_are_found() {
    let (header, source) = (text_of(HEADER), text_of(SOURCE));
    let changes = [
        ("board_symmetric(", "board_symmetrical("),
        ("bool board_symmetric(uint16_t matrix);", ""),
        ("uint16_t matrix);", "uint16_t matrix, uint8_t more);"),
        ("uint64_t limit, int64_t *out", "int64_t *out"),
        (
            "uint64_t limit, int64_t *out",
            "uint32_t limit, int64_t *out",
        ),
        ("int64_t *figures", "uint64_t *figures"),
        ("const uint8_t *rows", "uint8_t *rows"),
        ("uint8_t *numbers", "const uint8_t *numbers"),
        ("bool board_fields_ok", "uint8_t board_fields_ok"),
        (
            "size_t rows_length, size_t m",
            "size_t m, size_t rows_length",
        ),
    ];
    for (old, new) in changes {
        let wrong = header.replace(old, new);
        assert_ne!(wrong, header, "{old}");
        assert_ne!(differences(&wrong, &source), [""; 0], "{old}");
    }
}
