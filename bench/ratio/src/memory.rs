// Holds: the peak memory and the stack of a process that does one call, as the system counts them.
// Rests on: cases, sides; /proc/self/status.

use crate::cases::Case;
use crate::sides::{PROVED, SIDES};
use std::io::{Read, Write};
use std::process::{Command, ExitStatus, Stdio};
use std::{env, fs};

/// Kilobytes from a line of /proc/self/status, or a sign that there is none.
fn status(key: &str) -> String {
    let text = fs::read_to_string("/proc/self/status").unwrap_or_default();
    let line = text.lines().find_map(|line| line.strip_prefix(key));
    let word = line.and_then(|rest| rest.split_ascii_whitespace().nth(1));
    word.unwrap_or("?").to_string()
}

/// Does the call named on the file from standard input, in this process, and prints what it came to. A name that
/// is none reads the file and does nothing.
pub fn show_own(name: &str) {
    let mut input = Vec::new();
    let read = std::io::stdin().lock().read_to_end(&mut input);
    read.expect("the file is on standard input");
    for side in &SIDES {
        if name == format!("{}, run file", side.name) {
            side.on_file(&input)();
        } else if name == format!("{}, drain", side.name) {
            side.on_drain(&input)();
        } else if name == format!("{}, by value", side.name) {
            side.by_value(&input)();
        } else if name == format!("{}, changed", side.name) {
            side.changed(&input)();
        }
    }
    println!("{name:18}  {:>8}  {:>8}", status("VmHWM"), status("VmStk"));
}

/// A process of its own that does the call named.
fn measure(name: &str, input: &[u8]) -> std::io::Result<ExitStatus> {
    let mut child = Command::new(env::current_exe()?)
        .arg(name)
        .stdin(Stdio::piped())
        .spawn()?;
    if let Some(mut pipe) = child.stdin.take() {
        pipe.write_all(input)?;
    }
    child.wait()
}

/// A line for each call on a case.
pub fn table(case: &Case) {
    let (n, postings) = (case.n, case.postings);
    println!("Peak memory and stack of a process that does one call, in kB.");
    println!("{n} sites, {postings} postings.\n");
    println!("{:18}  {:>8}  {:>8}", "", "memory", "stack");
    let mut calls = vec![("nothing".to_string(), &case.carried)];
    for side in &SIDES {
        calls.push((format!("{}, run file", side.name), &case.carried));
        calls.push((format!("{}, drain", side.name), &case.offered));
        // The others have no calls by value.
        if side.name == PROVED {
            for call in ["by value", "changed"] {
                calls.push((format!("{}, {call}", side.name), &case.offered));
            }
        }
    }
    for (name, input) in calls {
        let done = measure(&name, input);
        if !done.is_ok_and(|status| status.success()) {
            println!("{name:18}  not measured");
        }
    }
}
