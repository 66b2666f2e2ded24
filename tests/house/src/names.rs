// Holds: the lines of a file that bring in names of the repository, read into their parts, and the paths that code brings in.
// Rests on: std.

/// Where names come from: a module of a crate's specs or proofs, or a type that its code declares.
#[derive(Clone, Debug, PartialEq, Eq, PartialOrd, Ord)]
pub struct Source {
    pub name: String,
    pub part: String,
    pub module: String,
    pub declared: bool,
}

/// A line that brings in names.
#[derive(Clone, Debug)]
pub struct Use {
    pub source: Source,
    pub names: Vec<String>,
}

/// `use Rattle.NAME.PART.MODULE.{..}`. What std defines is the toolchain's, as the modules of its logic are.
fn parse(line: &str) -> Option<Use> {
    let line = line.trim().trim_end_matches(';');
    let line = line.strip_prefix("ghost ").unwrap_or(line);
    let rest = line.strip_prefix("use Rattle.")?;
    let (path, names) = match rest.split_once(".{") {
        Some((path, names)) => (path, names.trim_end_matches('}')),
        None => (rest.split(' ').next()?, ""),
    };
    let mut words = path.split('.');
    let name = words.next().filter(|name| *name != "std")?.to_string();
    let part = words.next()?.to_string();
    let first = words.next()?.to_string();
    let declared = first == "declared";
    let module = if declared {
        // the file of src/ that declares the type stands before it
        words
            .find(|word| word.starts_with(char::is_uppercase))?
            .to_string()
    } else {
        first
    };
    let names = names
        .split(',')
        .map(|name| name.trim().to_string())
        .collect();
    let source = Source {
        name,
        part,
        module,
        declared,
    };
    Some(Use { source, names })
}

pub fn uses(text: &str) -> Vec<Use> {
    text.lines().filter_map(parse).collect()
}

/// A text cut at its commas that no brace holds.
fn pieces(text: &str) -> Vec<&str> {
    let mut depth = 0;
    let parts = text.split(|c| {
        match c {
            '{' => depth += 1,
            '}' => depth -= 1,
            _ => {}
        }
        depth == 0 && c == ','
    });
    parts.map(str::trim).filter(|it| !it.is_empty()).collect()
}

/// The paths that one comes to: a path for each name in its braces.
fn single(path: &str) -> Vec<String> {
    let Some((before, inside)) = path.split_once('{') else {
        return vec![path.to_string()];
    };
    let inside = inside.strip_suffix('}').unwrap_or(inside);
    let ends = pieces(inside).into_iter().flat_map(single);
    ends.map(|end| format!("{before}{end}")).collect()
}

/// The paths that the items `use PATH;` of a file of code bring in, also where an item's braces hold several names, in as many lines.
pub fn brought(text: &str) -> Vec<String> {
    let mut found = Vec::new();
    let mut item = String::new();
    for line in text.lines() {
        if item.is_empty() && !line.starts_with("use ") {
            continue;
        }
        item.push_str(line.trim());
        if item.matches('{').count() == item.matches('}').count() {
            let path = item.trim_start_matches("use ").trim_end_matches(';');
            found.extend(single(path));
            item.clear();
        }
    }
    found
}
