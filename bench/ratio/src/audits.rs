// Holds: what an audit of records costs: by the twin's reading, by the proved one, and by a scan of all pairs.
// Rests on: main, clock, records; the model's random numbers, the plain twin, the functions of tests/audit over slices, and the static library that programs links.

use crate::clock::{in_turns, Samples, Timed};
use crate::records::Records;
use model::prng::Prng;
use plain::audit::{audit_records, pairs_agree, Handed, Lent, FILLED};
use std::hint::black_box;
use std::time::Instant;

const SEED: u64 = 1;

/// The scan of pairs is quadratic: above this it is left out.
const SCANNED: usize = 20_000;

type Audits = fn(&Handed, &mut Lent, &mut [u64]) -> u64;

/// Only one of its functions is timed.
#[allow(dead_code)]
#[path = "../../../tests/audit/src/library.rs"]
mod library;

fn proved(handed: &Handed, lent: &mut Lent, out: &mut [u64]) -> u64 {
    let fields = library::Fields {
        kinds: handed.kinds,
        firsts: handed.firsts,
        seconds: handed.seconds,
        amounts: handed.amounts,
    };
    let records = (handed.lines, handed.ends);
    let room = (&mut *lent.marks, &mut *lent.places, &mut *lent.ahead);
    library::audit_records(handed.matrix, fields, records, room, out)
}

const SIDES: [(&str, Audits); 2] = [("twin", audit_records), ("proved", proved)];

/// Slices to lend.
struct Room {
    marks: Vec<u8>,
    places: Vec<u32>,
    ahead: Vec<u32>,
}

impl Room {
    fn new(numbers: usize) -> Room {
        Room {
            marks: vec![0; numbers],
            places: vec![0; numbers],
            ahead: vec![0; 8 * numbers],
        }
    }

    fn lend(&mut self) -> Lent<'_> {
        Lent {
            marks: &mut self.marks,
            places: &mut self.places,
            ahead: &mut self.ahead,
        }
    }
}

/// The code and the numbers of an answer.
fn answer(side: Audits, records: &Records) -> (u64, [u64; FILLED]) {
    let mut out = [0; FILLED];
    let mut room = Room::new(records.postings.len());
    let code = side(&records.handed(), &mut room.lend(), &mut out);
    (code, out)
}

/// All audits of the records, as often as it is called; a line is an event.
fn audits(side: Audits, records: &Records) -> Timed<'_> {
    let mut room = Room::new(records.postings.len());
    let mut out = [0; FILLED];
    let work = move || {
        let handed = records.handed();
        black_box(side(black_box(&handed), &mut room.lend(), &mut out));
    };
    (records.lines.len() as u64, Box::new(work))
}

/// The scan of pairs, once.
fn scan(records: &Records) -> String {
    if records.postings.len() > SCANNED {
        return "-".to_string();
    }
    let start = Instant::now();
    let agree = pairs_agree(&records.handed());
    let taken = start.elapsed();
    assert_eq!(agree, answer(audit_records, records).0 == 0);
    taken.as_micros().to_string()
}

fn cases() -> Vec<(&'static str, Records)> {
    let mut rng = Prng::new(SEED);
    let mut cases = Vec::new();
    for count in [5_000, SCANNED, 65_536] {
        cases.push(("agree", Records::new(&mut rng, count, None)));
    }
    let nets_all = Records::new(&mut rng, 65_536, Some(10));
    cases.push(("a tenth nets all", nets_all));
    let fault = Records::new(&mut rng, 65_536, None).with_a_fault();
    cases.push(("a fault at the end", fault));
    cases
}

/// One line for each case: µs an audit and ns a line on each side, the proved side against the twin, and the scan of pairs.
pub fn table() {
    println!("Audits: the records of seven sites judged and read. µs an audit, ns a line; the scan of pairs once.\n");
    print!("records             postings   lines");
    for (name, _) in SIDES {
        print!("  {name:>10}  ns a line");
    }
    print!("  {:>12}    from      to", "proved/twin");
    println!("  {:>10}", "pairs");
    for (name, records) in cases() {
        let answers = SIDES.map(|(_, side)| answer(side, &records));
        assert_eq!(answers[0], answers[1], "{name}");
        let faulty = name.starts_with("a fault");
        assert_eq!(answers[0].0 != 0, faulty, "{name}");
        let (postings, lines) = (records.postings.len(), records.lines.len());
        print!("{name:18}  {postings:8}  {lines:6}");
        let speeds: Vec<Samples> = in_turns(&mut SIDES.map(|(_, side)| audits(side, &records)));
        for speed in &speeds {
            let (whole, line) = (1e6 * lines as f64 / speed.best(), 1e9 / speed.best());
            print!("  {whole:10.0}  {line:9.2}");
        }
        crate::ratio(&speeds[1], &speeds[0]);
        println!("  {:>10}", scan(&records));
    }
    println!();
}
