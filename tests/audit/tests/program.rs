// Holds: the program `audit` on files, held to the plain program byte by byte; its limits; the script that gives an exit status; the examples.
// Rests on: program, written, report; examples/audit.

use audit::files::TOO_LONG;
use audit::handed::Handed;
use audit::large::{posting, seven};
use audit::program::{expected, folder, path, printed, program};
use audit::written;
use model::prng::Prng;
use model::{Posting, FIXED_PAIRS};
use std::collections::BTreeMap;
use std::fs::{read_to_string, write, File};
use std::path::Path;
use std::process::{Command, Output, Stdio};

const SITES: [&str; 8] = ["s0", "s1", "s2", "s3", "s4", "s5", "s6", "s7"];

/// The name and the arguments of each example.
fn cases() -> Vec<(String, Vec<String>)> {
    let listed = read_to_string(path("examples/audit/cases.txt")).unwrap();
    let case = |line: &str| {
        let (name, words) = line.split_once(": ").unwrap();
        let words = words.split(' ').map(String::from).collect();
        (name.to_string(), words)
    };
    listed.lines().map(case).collect()
}

fn as_str(words: &[String]) -> Vec<&str> {
    words.iter().map(String::as_str).collect()
}

#[test]
fn examples_print_what_is_stored() {
    let examples = path("examples/audit");
    for (name, words) in cases() {
        let stored = read_to_string(examples.join(format!("{name}.out"))).unwrap();
        let words = as_str(&words);
        assert_eq!(printed(&examples, &words), stored, "{name}");
        assert_eq!(expected(&examples, &words), stored, "{name}");
    }
}

/// The crate of stored cases has the examples' files, arguments and outputs.
#[test]
fn stored_cases_are_the_examples() {
    let stored = path("crates/audit_cases");
    let examples = path("examples/audit");
    let mut args = String::new();
    let mut out = String::new();
    for (name, words) in cases() {
        args += &format!("{}\n+\n", words.join("\n"));
        out += &read_to_string(examples.join(format!("{name}.out"))).unwrap();
    }
    assert_eq!(read_to_string(stored.join("args")).unwrap(), args);
    assert_eq!(read_to_string(stored.join("stdout")).unwrap(), out);
    for listed in examples.read_dir().unwrap() {
        let file = listed.unwrap().path();
        if file.extension().is_some_and(|kind| kind == "csv") {
            let copy = stored.join("data").join(file.file_name().unwrap());
            assert_eq!(std::fs::read(&file).unwrap(), std::fs::read(copy).unwrap());
        }
    }
}

/// The year's files are what the tool makes of what the machine gave.
#[test]
fn the_year_is_the_machines() {
    let tool = folder("tool");
    let examples = path("examples");
    for name in ["audit", "year"] {
        std::fs::create_dir_all(tool.join(name)).unwrap();
    }
    for name in ["audit/records", "year/board.out", "year/run.txt"] {
        std::fs::copy(examples.join(name), tool.join(name)).unwrap();
    }
    let ran = Command::new(tool.join("audit/records"))
        .arg("year")
        .status();
    assert!(ran.unwrap().success());
    for name in ["postings", "site0", "site1", "site2"] {
        let name = format!("audit/year-{name}.csv");
        let [made, stored] = [&tool, &examples].map(|from| read_to_string(from.join(&name)));
        assert_eq!(made.unwrap(), stored.unwrap());
    }
}

/// Files of any form, a third of them spoilt: the program prints what the plain one does.
#[test]
fn any_files() {
    let folder = folder("any");
    let mut rng = Prng::new(20);
    let mut verdicts: BTreeMap<String, usize> = BTreeMap::new();
    for _ in 0..3_000 {
        let handed = written::handed(&mut rng);
        let own = rng.percent(25);
        let n = handed.ends.len();
        let mut files = vec![written::postings(&mut rng, &handed)];
        files.extend((0..n).map(|site| written::site(&mut rng, &handed, site, own)));
        if rng.percent(4) {
            files[0].extend_from_within(..);
        }
        if rng.percent(35) {
            let spoilt = rng.below(files.len() as u64) as usize;
            written::spoil(&mut rng, &mut files[spoilt]);
        }
        write(folder.join("postings"), &files[0]).unwrap();
        for (name, text) in SITES.iter().zip(&files[1..]) {
            write(folder.join(name), text).unwrap();
        }
        let mut words = vec![if own { "-" } else { "postings" }];
        words.extend(&SITES[..n]);
        if rng.percent(10) {
            words.insert(0, rng.pick(&["0x5B6C", "0x5b6d", "0xFFFF", "0x5B6", "0xG"]));
        }
        let report = printed(&folder, &words);
        assert_eq!(report, expected(&folder, &words));
        let verdict = report.lines().next().unwrap().to_string();
        *verdicts.entry(verdict).or_default() += 1;
    }
    println!("{verdicts:?}");
    for verdict in ["SAME BOOKS", "AGREE SO FAR", "DO NOT AGREE"] {
        assert!(verdicts[verdict] > 100, "{verdict}");
    }
    for code in [2, 4, 5, 6, 7, 8, 9] {
        assert!(
            verdicts.contains_key(&format!("NOT AUDITED {code}")),
            "{code}"
        );
    }
}

/// The refusal, and the report's second line.
fn refused(folder: &Path, words: &[&str]) -> String {
    let report = printed(folder, words);
    assert_eq!(report, expected(folder, words));
    let lines: Vec<&str> = report.lines().collect();
    format!("{} {}", lines[0], lines[1])
}

/// A file of so many bytes, all of them a heading.
fn heading(bytes: usize) -> Vec<u8> {
    vec![b'h'; bytes]
}

#[test]
fn limits() {
    let folder = folder("limits");
    write(folder.join("postings"), "0,CALL,1,1,0\n").unwrap();
    SITES
        .iter()
        .for_each(|name| write(folder.join(name), "0\n").unwrap());
    let all = |count: usize| [&["postings"][..], &SITES[..count]].concat();
    assert!(printed(&folder, &all(7)).starts_with("SAME BOOKS\n"));
    assert!(refused(&folder, &all(8)).starts_with("NOT AUDITED 1 "));
    assert!(refused(&folder, &[]).starts_with("NOT AUDITED 1 "));
    assert!(refused(&folder, &["0x5B6C"]).starts_with("NOT AUDITED 1 "));
    write(folder.join("longest"), heading(TOO_LONG - 1)).unwrap();
    write(folder.join("longer"), heading(TOO_LONG)).unwrap();
    write(folder.join("bad"), "x,\n1\n").unwrap();
    let longest = printed(&folder, &["postings", "longest"]);
    assert!(longest.starts_with("SAME BOOKS\nRecords read: 1. Lines: 0."));
    let said = "NOT AUDITED 3 This file has 2097152 bytes or more: site 1's file.";
    assert_eq!(refused(&folder, &["postings", "bad", "longer"]), said);
    let said = "NOT AUDITED 3 This file has 2097152 bytes or more: the postings' file.";
    assert_eq!(refused(&folder, &["longer", "none"]), said);
    let said = "NOT AUDITED 3 This file cannot be read: site 0's file.";
    assert_eq!(refused(&folder, &["postings", "none", "longer"]), said);
    assert_eq!(refused(&folder, &["postings", "."]), said);
}

/// More lines than there can be postings: the first that stands twice is named, and a fault of form behind them all comes first.
#[test]
fn more_lines_than_postings() {
    let folder = folder("more");
    let postings: String = (0..65_536).map(|x| format!("{x},TRADE,1,2,1\n")).collect();
    write(folder.join("postings"), postings).unwrap();
    let mut record: String = (0..65_536).map(|x| format!("{x}\n")).collect();
    write(folder.join("all"), &record).unwrap();
    let report = printed(&folder, &["postings", "all", "all"]);
    assert!(report.starts_with("SAME BOOKS\nRecords read: 2. Lines: 131072. Postings: 65536.\n"));
    (0..70_000).for_each(|x| record += &format!("{}\n", x % 65_536));
    write(folder.join("twice"), &record).unwrap();
    let said = "NOT AUDITED 9\nIn site 0's file, line 65537: posting 0 stands on line 1 already.\n";
    assert!(printed(&folder, &["postings", "twice", "all"]).starts_with(said));
    record += "a,\n";
    write(folder.join("bad"), &record).unwrap();
    let said = "NOT AUDITED 4\nIn site 1's file, line 135537: ";
    assert!(printed(&folder, &["postings", "all", "bad"]).starts_with(said));
}

/// Seven records of real length as files: all postings, and the last record shorter.
fn large(name: &str, count: usize) -> std::path::PathBuf {
    let folder = folder(name);
    let mut rng = Prng::new(7);
    let shares = [2, 7, 1, 0];
    let postings: Vec<Posting> = (0..count).map(|_| posting(&mut rng, shares)).collect();
    let mut handed = Handed::new(FIXED_PAIRS, &postings);
    let records = seven(&mut rng, &handed);
    handed.replace(&records);
    let first = written::postings(&mut rng, &handed);
    write(folder.join("postings"), first).unwrap();
    for (site, name) in SITES[..7].iter().enumerate() {
        write(
            folder.join(name),
            written::site(&mut rng, &handed, site, true),
        )
        .unwrap();
    }
    folder
}

#[test]
fn large_files() {
    for count in [20_000, 65_536] {
        let folder = large(&format!("large-{count}"), count);
        for first in ["postings", "-"] {
            let words = [&[first][..], &SITES[..7]].concat();
            let report = printed(&folder, &words);
            assert!(report.starts_with("AGREE SO FAR\nRecords read: 7. Lines: "));
            assert!(report.contains(&format!("Postings: {count}.\n")));
        }
    }
}

/// It runs with a stack of 7,168 KiB.
#[test]
fn a_stack_of_seven_mebibytes() {
    let folder = large("stack", 65_536);
    let run = format!(
        "ulimit -s 7168 && '{}' postings s0 s1 s2 s3 s4 s5 s6",
        program().display()
    );
    let ran = Command::new("bash")
        .args(["-c", &run])
        .current_dir(folder)
        .output();
    let ran = ran.unwrap();
    assert!(ran.status.success() && ran.stdout.starts_with(b"AGREE SO FAR\n"));
}

fn said(words: &[&str], out: Stdio) -> Output {
    let mut run = Command::new(program());
    let run = run.args(words).current_dir(path("examples/audit"));
    let ran = run.stdout(out).stderr(Stdio::piped()).spawn().unwrap();
    ran.wait_with_output().unwrap()
}

/// What cannot be read or written is said on standard error, and nothing else is.
#[test]
fn standard_error() {
    let year = ["year-postings.csv", "year-site0.csv", "year-site1.csv"];
    assert_eq!(said(&year, Stdio::piped()).stderr, b"");
    let none = said(&["none.csv", "year-site0.csv"], Stdio::piped());
    assert_eq!(none.stderr, b"none.csv: No such file or directory\n");
    let place = said(&["year-postings.csv", "."], Stdio::piped());
    assert_eq!(place.stderr, b".: Is a directory\n");
    let full = File::options().write(true).open("/dev/full").unwrap();
    let full = String::from_utf8(said(&year, Stdio::from(full)).stderr).unwrap();
    assert!(full.starts_with("The report could not be written to its end.\n"));
}

/// The script's exit status for each verdict, and its output is the report.
#[test]
fn verdict_gives_a_status() {
    let examples = path("examples/audit").canonicalize().unwrap();
    let status = |audit: &Path, words: &[&str]| {
        let mut ran = Command::new(examples.join("verdict"));
        let ran = ran.args(words).env("AUDIT", audit).current_dir(&examples);
        let output = ran.output().unwrap();
        (
            output.status.code().unwrap(),
            String::from_utf8(output.stdout).unwrap(),
        )
    };
    for (name, words) in cases() {
        let stored = read_to_string(examples.join(format!("{name}.out"))).unwrap();
        let expected = match stored.lines().next().unwrap() {
            "SAME BOOKS" => 0,
            "AGREE SO FAR" => 3,
            "DO NOT AGREE" => 1,
            _ => 2,
        };
        assert_eq!(
            status(program(), &as_str(&words)),
            (expected, stored),
            "{name}"
        );
    }
    assert_eq!(status(Path::new("/nonexistent"), &["x"]).0, 2);
    assert_eq!(status(Path::new("/bin/true"), &["x"]).0, 2);
}
