// Holds: all records of four postings at up to three sites, against demand 3 by all orders, and against the audit's definition.
// Rests on: relations, order, rule, proved.

use audit::answer::{Answer, APART};
use audit::handed::Lent;
use audit::order::Orders;
use audit::proved::audited_with;
use audit::relations::{tables, Table, RELATIONS};
use audit::rule;
use std::io::Write;

/// How many cases were compared, and of which codes.
#[derive(Default)]
struct Tally {
    cases: u64,
    codes: [u64; APART as usize + 1],
}

impl Tally {
    fn count(&mut self, answer: &Answer) {
        self.cases += 1;
        self.codes[answer.code as usize] += 1;
    }

    /// Written past the capture of output, so that a plain run shows it.
    fn show(&self, what: &str) {
        let [agree, crossed, missing, apart] = [0, 10, 11, 12].map(|code| self.codes[code]);
        let pairs = format!("crossed {crossed}, missing {missing}, apart {apart}");
        let line = format!("{what}: {} cases, agree {agree}, {pairs}", self.cases);
        let _ = writeln!(std::io::stdout(), "{line}");
        assert!(self.codes.iter().sum::<u64>() == agree + crossed + missing + apart);
        assert!([agree, crossed, missing, apart].iter().all(|&n| n > 1_000));
    }
}

/// All records at so many sites, in every order of the sites.
fn compare(table: &Table, sites: u32, tally: &mut Tally) {
    let orders = Orders::new(&table.relation);
    let named = orders.all.iter().map(|list| {
        let numbers = list.iter().map(|&x| table.numbers[usize::from(x)]);
        numbers.collect()
    });
    let named: Vec<Vec<u16>> = named.collect();
    let count = named.len();
    let mut handed = table.handed.clone();
    let mut lent = Lent::for_numbers(handed.numbers());
    for case in 0..count.pow(sites) {
        let record = |site| case / count.pow(site) % count;
        let records: Vec<usize> = (0..sites).map(record).collect();
        handed.lines.clear();
        handed.ends.clear();
        records.iter().for_each(|&r| handed.record_of(&named[r]));
        let answer = audited_with(&handed, &mut lent);
        assert_eq!(
            answer.code == 0,
            orders.agree(&records),
            "{handed:?}: {answer:?}"
        );
        assert_eq!(answer, rule::audit(&handed), "{handed:?}");
        tally.count(&answer);
    }
}

/// A table for every relation; those with an odd number have a NET of all accounts where there is one.
fn compare_three_sites(rest: usize) {
    let mut tally = Tally::default();
    let found = tables(1, 40);
    let mut with_net_of_all = 0;
    for (bits, own) in found
        .iter()
        .enumerate()
        .filter(|(bits, _)| bits % 2 == rest)
    {
        let wanted = own.iter().find(|table| table.nets_all() == (bits % 2 == 1));
        let table = wanted.unwrap_or(&own[0]);
        with_net_of_all += u64::from(table.nets_all());
        compare(table, 3, &mut tally);
    }
    let relations = RELATIONS / 2;
    tally.show(&format!(
        "three sites, {relations} relations, {with_net_of_all} with a NET of all accounts"
    ));
}

#[test]
fn three_sites_of_even_relations() {
    compare_three_sites(0);
}

#[test]
fn three_sites_of_odd_relations() {
    compare_three_sites(1);
}

#[test]
fn one_and_two_sites() {
    const EACH: usize = 12;
    let mut tally = Tally::default();
    for table in tables(2, EACH).iter().flatten() {
        compare(table, 1, &mut tally);
        compare(table, 2, &mut tally);
    }
    tally.show(&format!("one and two sites, {RELATIONS} × {EACH} tables"));
}
