// Holds: what the proved programs say on standard error where their input cannot be read or their output not be written.
// Rests on: interface for paths, and the programs board and statement, made if they are not there.

use interface::path;
use std::fs::File;
use std::process::{Command, Output, Stdio};

const PROGRAMS: [&str; 2] = ["board", "statement"];

fn program(name: &str) -> Command {
    let folder = path("crates").join(name);
    let built = folder.join("out").join(name);
    if !built.exists() {
        // It is run too, on no input.
        let made = Command::new("rt").arg("run").current_dir(folder).output();
        let said = made.expect("rt is on the path").stderr;
        assert!(built.exists(), "{}", String::from_utf8_lossy(&said));
    }
    Command::new(built)
}

fn run(name: &str, input: &str, out: Stdio) -> Output {
    let input = File::open(input).expect("it can be opened");
    let ran = program(name)
        .stdin(input)
        .stdout(out)
        .stderr(Stdio::piped())
        .spawn();
    let ran = ran.expect("it runs").wait_with_output();
    ran.expect("it ends")
}

fn year() -> String {
    path("examples/year/run.bin").display().to_string()
}

#[test]
fn a_full_device_is_said() {
    for name in PROGRAMS {
        let full = File::options().write(true).open("/dev/full").unwrap();
        let output = run(name, &year(), Stdio::from(full));
        let said = String::from_utf8(output.stderr).unwrap();
        assert_eq!(said, "The output could not be written to its end.\n");
    }
}

#[test]
fn an_input_that_cannot_be_read_is_said() {
    for name in PROGRAMS {
        let output = run(name, "/", Stdio::piped());
        let said = String::from_utf8(output.stderr).unwrap();
        assert_eq!(said, "The input could not be read; nothing was done.\n");
        assert_eq!(output.stdout, b"");
    }
}

#[test]
fn nothing_else_is_said() {
    for name in PROGRAMS {
        let output = run(name, &year(), Stdio::piped());
        let stored = path("examples/year").join(format!("{name}.out"));
        assert_eq!(output.stderr, b"");
        assert_eq!(output.stdout, std::fs::read(stored).unwrap());
    }
}
