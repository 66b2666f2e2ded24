// Holds: what a file of code says to the proof: its clauses without their names, what it brings in for them, and its tactics.
// Rests on: std.

/// The words that begin a clause of a contract.
const CLAUSES: [&str; 2] = ["requires", "ensures"];

/// What begins anything else that is said to the proof.
const OTHERS: [&str; 3] = ["ghost ", "#[tactic", "#![tactic"];

/// Something said to the proof: the number of the line that it begins on, whether it is a clause of a contract, and its text.
#[derive(Clone, Debug, PartialEq, Eq)]
pub struct Said {
    pub line: usize,
    pub clause: bool,
    pub text: String,
}

/// Whether a brace or a bracket of a text is open.
fn open(text: &str) -> bool {
    [('{', '}'), ('[', ']')]
        .iter()
        .any(|(opens, closes)| text.matches(*opens).count() > text.matches(*closes).count())
}

/// What begins on a line: of a clause what stands in its braces.
fn begun(number: usize, line: &str) -> Option<Said> {
    let words = line.trim_start();
    let clause = CLAUSES.iter().any(|start| words.starts_with(start));
    let text = match words.find('{') {
        Some(at) if clause => &words[at..],
        _ => words,
    };
    let starts = clause || OTHERS.iter().any(|start| words.starts_with(start));
    starts.then(|| Said {
        line: number,
        clause,
        text: text.to_string(),
    })
}

/// All that a file of code says to the proof.
pub fn said(text: &str) -> Vec<Said> {
    let mut found: Vec<Said> = Vec::new();
    for (number, line) in text.lines().enumerate() {
        match found.last_mut().filter(|last| open(&last.text)) {
            Some(last) => {
                last.text.push('\n');
                last.text.push_str(line);
            }
            None => found.extend(begun(number, line)),
        }
    }
    found
}
