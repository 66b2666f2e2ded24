// Holds: texts that are wrong, with the line and the cause that the assembler gives, and its exit status.
// Rests on: text and its programs.

use std::io::Write;
use std::process::{Command, Output, Stdio};
use text::assemble;

const HEAD: &str = "sites 3\ncrashes 1\nmatrix 0x5B6C\n";

/// The line, and a part of the cause.
fn wrong(text: &str, line: usize, part: &str) {
    let fault = assemble(text).unwrap_err();
    assert_eq!(fault.line, line, "{text}\n{fault}");
    assert!(fault.cause.contains(part), "{text}\n{fault}");
}

/// The cause of an event that stands at line 4.
fn wrong_event(event: &str, part: &str) {
    wrong(&format!("{HEAD}{event}\norder 1\n"), 4, part);
}

#[test]
fn headers() {
    wrong("", 1, "the text ends where `sites`");
    wrong("# only\n\n", 3, "the text ends where `sites`");
    wrong("sites 3\n", 2, "the text ends where `crashes`");
    wrong(
        "sites 3\ncrashes 1\n\n#\n",
        5,
        "the text ends where `matrix`",
    );
    wrong(
        "crashes 1\nsites 3\n",
        1,
        "`sites` should stand where `crashes`",
    );
    wrong(
        "sites 3\ncrashes 1\norder 1\n",
        3,
        "`matrix` should stand where `order`",
    );
    wrong("sites 256\n", 1, "sites is 256, but 255 is the most");
    wrong("sites\n", 1, "the line ends where sites");
    wrong("sites 3 3\n", 1, "the line should end where `3`");
    wrong("sites three\n", 1, "`three`, which is no number");
    wrong("sites 3\ncrashes -1\n", 2, "`-1`, which is no number");
    wrong(
        "sites 3\ncrashes 1\nmatrix 0x10000\n",
        3,
        "65535 is the most",
    );
    wrong(&format!("{HEAD}sites 3\n"), 4, "`sites` is no event");
}

#[test]
fn events() {
    wrong_event("sell 1", "`sell` is no event");
    wrong_event("Order 1", "`Order` is no event");
    wrong_event("order", "the line ends where the posting");
    wrong_event("order 1 2", "should end where `2`");
    wrong_event("order 1 cut 2", "should end where `cut`");
    wrong_event("crash 1 cut 2", "should end where `cut`");
    wrong_event("crash 0x", "no number");
    wrong_event("crash +1", "no number");
    wrong_event("crash 1_0", "no number");
    wrong_event("read", "the line ends where the site");
    wrong_event("read 1 2", "`cut` should stand where `2`");
    wrong_event("read 1 cut", "the line ends where the cut");
    wrong_event("read 1 cut 255", "254 is the most");
    wrong_event("read 1 cut 2 3", "should end where `3`");
    wrong_event("offer 0 TRADE 1 2", "the line ends where the amount");
    wrong_event(
        "offer 0 SALE 1 2 3",
        "neither TRADE, RATE, CALL, NET nor a number",
    );
    wrong_event("offer 0 256 1 2 3", "the kind is 256, but 255");
    wrong_event("offer 0 TRADE 1 2 4294967296", "4294967295 is the most");
    wrong_event("offer 0 TRADE 1 2 99999999999999999999", "is the most");
    wrong_event("offer 0 TRADE 256 2 3", "account a is 256");
    wrong_event("receive FOURTH 0 from 0 to 0", "neither FIRST,");
    wrong_event("receive FIRST 0 0 0", "`from` should stand where `0`");
    wrong_event("receive FIRST 0 from 0", "the line ends where `to`");
    wrong_event("receive FIRST 0 from 0 to 0 uncut", "`cut` should stand");
    wrong_event("receive FIRST 0 from \u{FFFD} to 0", "no number");
}

#[test]
fn too_many_events() {
    let full = format!("{HEAD}{}", "read 0\n\n".repeat(4096));
    assert!(assemble(&full).is_ok());
    let text = format!("{full}# one more\nread 0\nnonsense\n");
    wrong(&text, 3 + 2 * 4096 + 2, "more than 4096 events");
}

fn program(path: &str, input: &[u8]) -> Output {
    let mut child = Command::new(path)
        .stdin(Stdio::piped())
        .stdout(Stdio::piped())
        .stderr(Stdio::piped())
        .spawn()
        .unwrap();
    child.stdin.take().unwrap().write_all(input).unwrap();
    child.wait_with_output().unwrap()
}

#[test]
fn programs() {
    let text = format!("{HEAD}order 5\n");
    let file = assemble(&text).unwrap();
    for (path, input, output) in [
        (env!("CARGO_BIN_EXE_assemble"), text.as_bytes(), &*file),
        (env!("CARGO_BIN_EXE_disassemble"), &*file, text.as_bytes()),
        (env!("CARGO_BIN_EXE_model-statement"), b"RUN", b"F 1\n"),
    ] {
        let done = program(path, input);
        assert!(done.status.success() && done.stderr.is_empty());
        assert_eq!(done.stdout, output);
    }
}

#[test]
fn programs_that_fail() {
    let text = [HEAD.as_bytes(), b"# \xFF\nread \xFF\n"].concat();
    let head: &[u8] = b"RUN";
    for (path, input, cause) in [
        (env!("CARGO_BIN_EXE_assemble"), &*text, "line 5: the site"),
        (
            env!("CARGO_BIN_EXE_disassemble"),
            head,
            "the file has 3 bytes",
        ),
    ] {
        let done = program(path, input);
        assert_eq!(done.status.code(), Some(1));
        assert!(done.stdout.is_empty());
        let said = String::from_utf8(done.stderr).unwrap();
        assert!(said.starts_with(cause) && said.ends_with('\n'), "{said}");
    }
}
