// Holds: no function on the way to a call divides (document 02, W4), and docs/CLAIMS.md lists these functions, no more and no fewer;
// and that this is found out rightly, on two crates in small.
// Rests on: house and docs/CLAIMS.md.

use house::functions::{Functions, Named};
use house::tree::{read, root};
use std::collections::{BTreeMap, BTreeSet};

/// Where the way to a call begins: the books of sites, the pass of a look-up, the figures of a record handed over, and what is exported of a
/// posting's effect and of a call's size.
const FROM: [(&str, &str); 5] = [
    ("books", "books_all"),
    ("passes", "pass_at"),
    ("exports", "board_audit_figures"),
    ("exports", "board_effect"),
    ("exports", "board_size_of_call"),
];

/// The line of the claims that lists the functions.
const CLAIM: &str = "| no division or remainder is left on the way to a call |";

/// The functions that the claims list, each as `CRATE::NAME`.
fn listed() -> BTreeSet<Named> {
    let page = read(&root().join("docs/CLAIMS.md"));
    let line = page.lines().find(|line| line.starts_with(CLAIM));
    let words = line.expect("the line on the way to a call").split('`');
    words
        .filter_map(|word| word.split_once("::"))
        .map(|(own, name)| (own.to_string(), name.to_string()))
        .collect()
}

#[test]
fn the_claims_list_the_way_to_a_call() {
    let reached = Functions::read(&root()).reached(&FROM);
    assert_eq!(reached, Ok(listed()));
    assert!(listed().contains(&("books".to_string(), "size_of_call".to_string())));
}

#[test]
fn no_function_on_the_way_to_a_call_divides() {
    let functions = Functions::read(&root());
    let found: Vec<Named> = listed()
        .into_iter()
        .filter(|named| functions.divides(named))
        .collect();
    assert_eq!(found, [], "these divide");
}

/// Two crates in small. One function divides in its contract and its comments alone, two others in their bodies.
const ABOVE: &str = "use below::{
    Part, shares,
};
// a / b
fn size(x: u64) -> u64
    ensures { result ≡ x / 2 }
{
    // x % 2
    let y = below::change(x << 1, p.touches(x));
    shares(y)
}

fn strange() {
    unknown(1);
}
";

const BELOW: &str = "impl Part {
    pub fn touches(self, x: u64) -> u64 {
        self.rest >> x
    }
}

pub fn change(x: u64, y: u64) -> u64 {
    x % y
}

pub fn shares(x: u64) -> u64 {
    x
}
";

fn small() -> Functions {
    let name = |name: &str| name.to_string();
    let crates = BTreeMap::from([
        (name("above"), BTreeSet::from([name("below")])),
        (name("below"), BTreeSet::new()),
    ]);
    let texts = [("above", ABOVE), ("below", BELOW)].map(|(own, text)| (name(own), name(text)));
    Functions::of(crates, &texts)
}

#[test]
fn calls_are_followed_by_path_as_methods_and_by_name() {
    let reached = small().reached(&[("above", "size")]).expect("all is found");
    let divide: Vec<(&str, &str, bool)> = reached
        .iter()
        .map(|named| (&*named.0, &*named.1, small().divides(named)))
        .collect();
    let wanted = [
        ("above", "size", false),
        ("below", "change", true),
        ("below", "shares", false),
        ("below", "touches", true),
    ];
    assert_eq!(divide, wanted);
}

#[test]
fn what_is_found_nowhere_is_said() {
    let cause = small().reached(&[("above", "strange")]).unwrap_err();
    assert!(cause.contains("unknown"), "{cause}");
}
