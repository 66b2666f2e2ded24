// Holds: arguments of all sorts, against the plain judge and both plain programs.
// Rests on: any, judge, pairs, proved; the model's random numbers.

use audit::answer::{AGREED, FILLED, NO_ROOM};
use audit::any::{handed, lent, room};
use audit::proved::audit_records;
use audit::{judge, pairs};
use model::prng::Prng;
use std::collections::BTreeMap;
use std::io::Write;

/// Arguments of all sorts, sound and not, with slices of any length.
#[test]
fn any_arguments() {
    let mut rng = Prng::new(31);
    let mut codes: BTreeMap<u64, u64> = BTreeMap::new();
    for _ in 0..600_000 {
        let handed = handed(&mut rng);
        let mut lent = lent(&mut rng, handed.numbers());
        let mut out = room(&mut rng, FILLED, |word| word);
        let mut wanted = out.clone();
        let mut code = NO_ROOM;
        if let Some(part) = wanted.get_mut(..FILLED) {
            let answer = judge::answer(&handed, &lent);
            part.copy_from_slice(&answer.filled());
            code = answer.code;
            if code == AGREED || answer.names_pair() {
                assert_eq!(answer, pairs::audit(&handed), "{handed:?}");
                assert_eq!(code == AGREED, pairs::agree(&handed), "{handed:?}");
            }
        }
        let answer = audit_records(&handed, &mut lent, &mut out);
        assert_eq!((answer, out), (code, wanted), "{handed:?}");
        *codes.entry(code).or_default() += 1;
    }
    let _ = writeln!(std::io::stdout(), "any arguments, by code: {codes:?}");
    assert_eq!(codes.len(), 11, "every code, and no room");
    assert!(codes.values().all(|&count| count > 1_000));
}
