// Holds: prints what must be believed, a row a file, and how many lines it has.
// Rests on: believed.

use house::believed::{all, audit, audit_of_files, service, statement, Believed};

fn say(what: &str, found: &Believed) {
    let total = found.total();
    println!(
        "{what}: {} files and types, {} lines of definitions, {} with comments and the names brought in",
        found.files.len(),
        total.defining,
        total.all
    );
}

fn main() {
    let found = all();
    print!("{}", found.table());
    say("demand 3's statement", &statement());
    say(
        "with one account at a time and every promise of the service",
        &service(),
    );
    say("the audit alone", &audit());
    say("the audit with its program", &audit_of_files());
    say("all, with what is exported for tests", &found);
    for fault in &found.faults {
        println!("fault: {fault}");
    }
}
