// Holds: what a run of the program `audit` costs from its start to its end, beside the twin's, on the same files.
// Rests on: records; the model's random numbers, the plain twin, crates/audit/out/audit, and /proc/self/stat.

use crate::records::Records;
use model::prng::Prng;
use std::path::{Path, PathBuf};
use std::process::Command;
use std::{env, fs, io};

const SEED: u64 = 1;
const POSTINGS: usize = 20_000;

/// The programs take turns of so many runs, since the system counts in ticks of ten milliseconds.
const TURNS: usize = 6;
const RUNS: usize = 10;
const TICK: f64 = 10.0;

/// Where the processor time of children stands in /proc/self/stat, behind the name: that of users, and the system's.
const CHILDREN: [usize; 2] = [13, 14];

/// With this as its first word this process is the twin.
const TWIN: &str = "plain-audit";

const KINDS: [&str; 4] = ["TRADE", "RATE", "CALL", "NET"];

/// The rows of the table, with the first argument and how the names of the records begin.
const ROWS: [(&str, &str, &str); 3] = [
    ("postings.csv, all fields", "postings.csv", "fields"),
    ("postings.csv, numbers", "postings.csv", "numbers"),
    ("-, all fields", "-", "fields"),
];

/// A program, with the words ahead of its arguments.
struct Side {
    name: &'static str,
    program: PathBuf,
    words: &'static [&'static str],
}

/// A path of the repository.
fn path(name: &str) -> PathBuf {
    let root = Path::new(env!("CARGO_MANIFEST_DIR")).join("../..");
    root.join(name)
}

/// Is the twin if the words ask for that; whether they do.
pub fn be_twin(words: &[String]) -> bool {
    let Some((TWIN, words)) = words
        .split_first()
        .map(|(word, rest)| (word.as_str(), rest))
    else {
        return false;
    };
    plain::files::print(words).expect("the report can be written");
    true
}

/// A line with all fields.
fn fields(records: &Records, x: usize) -> String {
    let p = &records.postings[x];
    let kind = KINDS[usize::from(p.kind)];
    format!("{x},{kind},{},{},{}\n", p.a, p.b, p.amount)
}

/// The postings' file, and each site's with all fields and with numbers alone.
fn write(records: &Records, folder: &Path) -> io::Result<usize> {
    fs::create_dir_all(folder)?;
    let postings: String = (0..POSTINGS).map(|x| fields(records, x)).collect();
    fs::write(folder.join("postings.csv"), postings)?;
    let handed = records.handed();
    let mut from = 0;
    for (site, &to) in handed.ends.iter().enumerate() {
        let record = &handed.lines[from..to];
        let whole: String = record.iter().map(|&x| fields(records, x.into())).collect();
        fs::write(folder.join(format!("fields{site}.csv")), whole)?;
        let numbers: String = record.iter().map(|x| format!("{x}\n")).collect();
        fs::write(folder.join(format!("numbers{site}.csv")), numbers)?;
        from = to;
    }
    Ok(handed.ends.len())
}

impl Side {
    /// What a run prints.
    fn run(&self, folder: &Path, arguments: &[String]) -> Vec<u8> {
        let mut run = Command::new(&self.program);
        let ran = run.args(self.words).args(arguments).current_dir(folder);
        let output = ran.output().expect("the program runs");
        assert!(output.status.success(), "{}", self.name);
        output.stdout
    }
}

/// The processor time that all children have had, in ticks.
fn ticks() -> u64 {
    let text = fs::read_to_string("/proc/self/stat").expect("the system counts");
    let (_, behind) = text.rsplit_once(')').expect("the name is in brackets");
    let words: Vec<&str> = behind.split_ascii_whitespace().collect();
    let numbers = CHILDREN.map(|place| words[place].parse::<u64>());
    numbers.into_iter().flatten().sum()
}

/// Milliseconds of processor time a run of each side, in turns.
fn times(sides: &[Side; 2], folder: &Path, arguments: &[String]) -> [f64; 2] {
    let mut all = [0; 2];
    for _ in 0..TURNS {
        for (side, taken) in sides.iter().zip(&mut all) {
            let start = ticks();
            for _ in 0..RUNS {
                side.run(folder, arguments);
            }
            *taken += ticks() - start;
        }
    }
    all.map(|taken| taken as f64 * TICK / (TURNS * RUNS) as f64)
}

fn sides() -> io::Result<[Side; 2]> {
    let twin = Side {
        name: "twin",
        program: env::current_exe()?,
        words: &[TWIN],
    };
    let proved = Side {
        name: "proved",
        program: path("crates/audit/out/audit").canonicalize()?,
        words: &[],
    };
    Ok([twin, proved])
}

/// A line for each sort of files: ms a run on each side, and the proved side against the twin.
pub fn table() {
    println!("Programs: files read, audited, the report printed. ms of processor time a run.\n");
    let Ok(sides) = sides() else {
        return println!(
            "Left out: crates/audit/out/audit is not there; `rt run` in crates/audit makes it.\n"
        );
    };
    let records = Records::new(&mut Prng::new(SEED), POSTINGS, None);
    let folder = path("target/programs");
    let sites = write(&records, &folder).expect("the files can be written");
    print!("{:24}  postings   lines", "files");
    sides.iter().for_each(|side| print!("  {:>10}", side.name));
    println!("  {:>12}", "proved/twin");
    for (name, first, begin) in ROWS {
        let named = (0..sites).map(|site| format!("{begin}{site}.csv"));
        let arguments: Vec<String> = [first.to_string()].into_iter().chain(named).collect();
        let [one, other] = [0, 1].map(|side: usize| sides[side].run(&folder, &arguments));
        assert_eq!(one, other, "{name}");
        assert!(one.starts_with(b"AGREE SO FAR\n"), "{name}");
        let [twin, proved] = times(&sides, &folder, &arguments);
        let lines = records.lines.len();
        print!("{name:24}  {POSTINGS:8}  {lines:6}  {twin:10.2}  {proved:10.2}");
        println!("  {:12.3}", twin / proved);
    }
    println!();
}
