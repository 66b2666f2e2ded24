// Holds: demand 3 itself for a few postings: which records have one order, by all orders and by single exchanges of neighbours.
// Rests on: std.

use std::collections::HashMap;

/// A bit for each list without repeats of at most four postings, of which there are 65.
type Lists = u128;

/// Whether postings x and y conflict.
pub type Relation = [[bool; 4]; 4];

/// All lists of some of the postings 0 to 3, each posting once.
pub fn lists() -> Vec<Vec<u16>> {
    let mut all = vec![Vec::new()];
    let mut next = 0;
    while next < all.len() {
        for x in (0..4)
            .filter(|x| !all[next].contains(x))
            .collect::<Vec<u16>>()
        {
            let longer = [all[next].as_slice(), &[x]].concat();
            all.push(longer);
        }
        next += 1;
    }
    all
}

/// For each list a number of its own class: lists are of one class if exchanges of neighbours that do not conflict
/// turn one into the other.
fn classes(relation: &Relation, all: &[Vec<u16>]) -> Vec<usize> {
    let number: HashMap<&[u16], usize> = all.iter().enumerate().map(|(k, l)| (&l[..], k)).collect();
    let mut class: Vec<usize> = vec![usize::MAX; all.len()];
    for start in 0..all.len() {
        let mut open = vec![start];
        while let Some(k) = open.pop() {
            if class[k] != usize::MAX {
                continue;
            }
            class[k] = start;
            for i in 1..all[k].len() {
                let [x, y] = [all[k][i - 1], all[k][i]];
                if !relation[usize::from(x)][usize::from(y)] {
                    let mut exchanged = all[k].clone();
                    exchanged.swap(i - 1, i);
                    open.push(number[&exchanged[..]]);
                }
            }
        }
    }
    class
}

/// Whether a record has, with every y of the order that it has, each conflicting x ahead of y in the order.
fn has_ahead(relation: &Relation, record: &[u16], order: &[u16]) -> bool {
    order.iter().enumerate().all(|(i, y)| {
        let conflicts = |x: &&u16| relation[usize::from(**x)][usize::from(*y)];
        let mut ahead = order[..i].iter().filter(conflicts);
        !record.contains(y) || ahead.all(|x| record.contains(x))
    })
}

/// For each record, the orders that it fits; for each set of postings, the orders of just these.
pub struct Orders {
    pub all: Vec<Vec<u16>>,
    fits: Vec<Lists>,
    of_set: [Lists; 16],
    sets: Vec<usize>,
}

impl Orders {
    pub fn new(relation: &Relation) -> Orders {
        let all = lists();
        let class = classes(relation, &all);
        let set = |list: &Vec<u16>| list.iter().fold(0, |set, x| set | 1 << x);
        let sets: Vec<usize> = all.iter().map(set).collect();
        let mut of_set = [0; 16];
        let mut fits = vec![0; all.len()];
        for (k, order) in all.iter().enumerate() {
            of_set[sets[k]] |= 1 << k;
            for (r, record) in all.iter().enumerate() {
                let kept = order.iter().filter(|x| record.contains(x));
                let share: Vec<u16> = kept.copied().collect();
                let place = all.iter().position(|list| *list == share);
                let becomes = place.is_some_and(|s| class[s] == class[r]);
                if becomes && has_ahead(relation, record, order) {
                    fits[r] |= 1 << k;
                }
            }
        }
        Orders {
            all,
            fits,
            of_set,
            sets,
        }
    }

    /// Whether the records with these numbers have one order of all that they deliver.
    pub fn agree(&self, records: &[usize]) -> bool {
        let delivered = records.iter().fold(0, |set, &r| set | self.sets[r]);
        let orders = self.of_set[delivered];
        records.iter().fold(orders, |left, &r| left & self.fits[r]) != 0
    }
}
