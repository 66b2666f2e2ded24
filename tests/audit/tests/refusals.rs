// Holds: every refusal once and at its edges, the slices lent, and the room for the answer.
// Rests on: handed, judge, rule, proved; the model's postings.

use audit::answer::*;
use audit::handed::{Handed, Lent, NO_KIND};
use audit::judge::{self, NUMBERS, SITES};
use audit::proved::{audit_records, audited, audited_with};
use audit::rule;
use model::{Posting, FIXED_PAIRS, HOUSE_NET};

fn posting(kind: u8, a: u8, b: u8, amount: u32) -> Posting {
    let owner = 0;
    Posting {
        owner,
        kind,
        a,
        b,
        amount,
    }
}

/// TRADE 0, RATE 1, no 2, CALL 3, NET 4 and a NET of all 5, in two records that agree.
fn sound() -> Handed {
    let mut handed = Handed::new(FIXED_PAIRS, &[]);
    handed.add(&posting(0, 0, 1, 5));
    handed.add(&posting(1, 0, 0, 10_000));
    handed.skip();
    handed.add(&posting(2, 0, 0, 0));
    handed.add(&posting(3, 15, 15, 0));
    handed.add(&HOUSE_NET);
    handed.record_of(&[0, 1, 3, 4, 5]);
    handed.record_of(&[4, 1, 0, 3, 5]);
    assert_eq!(audited(&handed), Answer::default());
    handed
}

fn changed(change: impl FnOnce(&mut Handed)) -> Answer {
    let mut handed = sound();
    change(&mut handed);
    audited(&handed)
}

#[test]
fn site_counts() {
    for sites in 0..=9 {
        let answer = changed(|handed| handed.ends.resize(sites, 10));
        match sites {
            0 | 8 | 9 => assert_eq!(answer, Answer::only(BAD_SITES)),
            // The second record's lines are left.
            1 => assert_eq!(answer, Answer::only(BAD_SIZES)),
            _ => assert_eq!(answer, Answer::default(), "{sites} sites"),
        }
    }
    let mut handed = sound();
    for sites in 1..=SITES {
        handed.replace(&vec![vec![0, 1]; sites]);
        assert_eq!(audited(&handed), Answer::default());
    }
    handed.record_of(&[]);
    assert_eq!(audited(&handed), Answer::only(BAD_SITES));
    // It stands before a matrix without a fixed pair, and before sizes.
    handed.matrix = 0;
    handed.firsts.pop();
    assert_eq!(audited(&handed), Answer::only(BAD_SITES));
}

/// Every matrix there is.
#[test]
fn matrices() {
    let mut handed = sound();
    let lawful: Vec<u16> = (0..=u16::MAX)
        .filter(|&matrix| {
            handed.matrix = matrix;
            let answer = audited(&handed);
            assert_eq!(
                answer,
                judge::answer(&handed, &Lent::for_numbers(handed.numbers()))
            );
            answer.code != BAD_MATRIX
        })
        .collect();
    assert_eq!(lawful.len(), 32);
}

#[test]
fn slices_of_different_lengths() {
    let changes: [fn(&mut Handed); 10] = [
        |handed| handed.kinds.truncate(handed.kinds.len() - 1),
        |handed| handed.firsts.truncate(handed.firsts.len() - 1),
        |handed| handed.seconds.truncate(handed.seconds.len() - 1),
        |handed| handed.amounts.truncate(handed.amounts.len() - 1),
        |handed| handed.firsts.push(0),
        |handed| handed.seconds.push(0),
        |handed| handed.amounts.push(0),
        |handed| handed.lines.truncate(handed.lines.len() - 1),
        |handed| handed.lines.push(0),
        |handed| handed.ends[0] = 11,
    ];
    for change in changes {
        assert_eq!(changed(change), Answer::only(BAD_SIZES));
    }
    // One more kind of which the others lack the fields, and ends that fall.
    let mut handed = sound();
    handed.kinds.push(NO_KIND);
    let mut lent = Lent::for_numbers(9);
    assert_eq!(audited_with(&handed, &mut lent), Answer::only(BAD_SIZES));
    for ends in [vec![10, 5], vec![5, 4, 10], vec![usize::MAX, 10], vec![9]] {
        assert_eq!(
            changed(|handed| handed.ends = ends),
            Answer::only(BAD_SIZES)
        );
    }
}

#[test]
fn slices_lent() {
    let handed = sound();
    let numbers = handed.numbers();
    for short in 0..3 {
        let mut lent = Lent::for_numbers(numbers);
        match short {
            0 => lent.marks.truncate(numbers - 1),
            1 => lent.places.truncate(numbers - 1),
            _ => lent.ahead.truncate(8 * numbers - 1),
        }
        let answer = audited_with(&handed, &mut lent);
        assert_eq!(answer, Answer::only(BAD_SIZES));
    }
    let mut longer = Lent::for_numbers(numbers + 3);
    for _ in 0..3 {
        assert_eq!(audited_with(&handed, &mut longer), Answer::default());
    }
}

/// As many numbers as there may be, and one more; without any, too.
#[test]
fn counts_of_numbers() {
    let mut handed = Handed::new(FIXED_PAIRS, &[posting(2, 3, 3, 0); NUMBERS]);
    handed.record_of(&[u16::MAX, 0]);
    assert_eq!(audited(&handed), Answer::default());
    handed.add(&posting(2, 3, 3, 0));
    assert_eq!(audited(&handed), Answer::only(BAD_SIZES));
    let mut none = Handed::new(FIXED_PAIRS, &[]);
    none.record_of(&[]);
    assert_eq!(audited(&none), Answer::default());
    none.record_of(&[0]);
    assert_eq!(audited(&none), Answer::at(UNKNOWN, 1, 0, 0));
}

#[test]
fn fields() {
    let odd = [
        posting(0, 3, 3, 5),
        posting(0, 0, 1, 0),
        posting(0, 0, 1, 1_000_000_001),
        posting(0, 255, 255, 1),
        posting(0, 16, 1, 1),
        posting(1, 0, 1, 5),
        posting(1, 0, 0, 10_001),
        posting(2, 1, 1, 1),
        posting(2, 255, 255, 0),
        posting(3, 255, 1, 0),
        posting(3, 1, 255, 0),
        posting(3, 16, 16, 0),
        posting(3, 255, 255, 1),
        posting(4, 0, 0, 0),
        posting(254, 0, 0, 0),
    ];
    for p in odd {
        let answer = changed(|handed| {
            handed.add(&p);
            handed.add(&p);
            // Refusals 7 and 9 come after it.
            handed.lines[3] = 2;
            handed.lines[9] = 4;
        });
        assert_eq!(answer, Answer::at(BAD_FIELDS, 0, 0, 6), "{p:?}");
    }
}

#[test]
fn numbers_without_posting() {
    for number in [2, 6, 7, u16::MAX] {
        let answer = changed(|handed| {
            handed.lines[8] = number;
            handed.lines[9] = number;
            handed.lines[1] = 0;
        });
        let wanted = Answer::at(UNKNOWN, 1, 3, number.into());
        assert_eq!(answer, wanted, "{number}");
    }
}

#[test]
fn numbers_named_twice() {
    let answer = changed(|handed| {
        handed.lines[7] = 1;
        handed.lines[8] = 1;
        handed.lines[9] = 4;
    });
    let above = 1;
    let wanted = Answer::at(TWICE, 1, 2, 1);
    assert_eq!(answer, Answer { above, ..wanted });
    // In two records a number may stand.
    let answer = changed(|handed| handed.lines[1] = 0);
    assert_eq!(answer, Answer::at(TWICE, 0, 1, 0));
}

/// Room for the answer: seven numbers are too few and stay as they are, and what lies beyond eight stays.
#[test]
fn room_for_the_answer() {
    let mut handed = sound();
    handed.lines.swap(5, 6);
    handed.lines.swap(1, 2);
    let wanted = rule::audit(&handed);
    assert!(wanted.names_pair());
    for length in 0..12 {
        let mut out = vec![0xA5; length];
        let mut lent = Lent::for_numbers(handed.numbers());
        let code = audit_records(&handed, &mut lent, &mut out);
        if length < FILLED {
            assert_eq!((code, out), (NO_ROOM, vec![0xA5; length]));
        } else {
            assert_eq!(code, wanted.code);
            assert_eq!(out[..FILLED], wanted.filled());
            assert!(out[FILLED..].iter().all(|&number| number == 0xA5));
        }
    }
}
