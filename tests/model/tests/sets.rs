// Holds: sets of postings against sets of plain numbers, with members in each of the four words.
// Rests on: the model.

use model::prng::Prng;
use model::set::{below, has, members, of, one};
use model::*;
use std::collections::BTreeSet;

const EDGES: [usize; 10] = [0, 1, 63, 64, 65, 127, 128, 191, 192, 255];

fn plain(set: Set) -> BTreeSet<usize> {
    (0..256).filter(|&m| has(set, m)).collect()
}

/// Few members, many, or those at the edges of the words.
fn any_numbers(rng: &mut Prng) -> BTreeSet<usize> {
    let share = rng.pick(&[1, 10, 50, 99]);
    let mut numbers: BTreeSet<usize> = (0..256).filter(|_| rng.percent(share)).collect();
    if rng.percent(50) {
        numbers.extend(EDGES.iter().filter(|_| rng.percent(50)));
    }
    numbers
}

#[test]
fn capacity() {
    assert_eq!((POSTINGS, WORDS), (256, 4));
    assert_eq!(plain(Set::EMPTY).len(), 0);
    assert_eq!(plain(Set::ALL).len(), 256);
    assert!(Set::EMPTY.is_empty() && !Set::ALL.is_empty());
}

#[test]
fn single_numbers() {
    for m in 0..256 {
        assert_eq!(plain(one(m)), BTreeSet::from([m]));
        assert_eq!(one(m).words[m / 64], 1 << (m % 64));
        assert!(!one(m).is_empty() && !has(!one(m), m));
        assert_eq!(members(one(m)).collect::<Vec<_>>(), [m]);
    }
}

#[test]
fn numbers_below() {
    for count in 0..=256 {
        assert_eq!(plain(below(count)), (0..count).collect());
        assert!(members(below(count)).eq(0..count));
    }
    for count in [257, 300, usize::MAX] {
        assert_eq!(below(count), Set::ALL);
    }
}

#[test]
fn operations_are_those_of_plain_numbers() {
    let mut rng = Prng::new(61);
    for _ in 0..2000 {
        let (x, y) = (any_numbers(&mut rng), any_numbers(&mut rng));
        let (a, b) = (of(x.iter().copied()), of(y.iter().copied()));
        assert_eq!((plain(a), plain(b)), (x.clone(), y.clone()));
        assert!(members(a).eq(x.iter().copied()));
        assert_eq!(plain(a | b), &x | &y);
        assert_eq!(plain(a & b), &x & &y);
        assert_eq!(plain(a & !b), &x - &y);
        let mut c = a;
        c ^= b;
        assert_eq!(plain(c), &x ^ &y);
        c |= a;
        assert_eq!(plain(c), &x | &y);
        c &= b;
        assert_eq!(c, b);
        assert_eq!(a == b, x == y);
        assert_eq!(a.is_empty(), x.is_empty());
    }
}
