// Holds: the field rule, the tests of the matrix, conflicts of two postings, and C(m), compared.
// Rests on: proved, inputs, tally, the model.

use crate::inputs::{
    any_matrix, damage_rows, odd_posting, postings, rows, sound_posting, sound_table,
    EDGE_ACCOUNTS, EDGE_AMOUNTS, EDGE_KINDS,
};
use crate::proved::{self, DONE, REFUSED};
use crate::tally::Tally;
use model::gen::legal_matrix;
use model::posting::KINDS;
use model::prng::Prng;
use model::{conflict, fields_ok, matrix_has_fixed_pairs, matrix_symmetric, nets_house, touches};
use model::{Board, Posting, Set, ACCOUNTS, FIXED_PAIRS, HOUSE_NET, POSTINGS, WORDS};

fn same_fields(tally: &mut Tally, p: &Posting) {
    let model = fields_ok(p.kind.into(), p.a.into(), p.b.into(), p.amount.into());
    let proved = proved::fields_ok(p.kind, p.a, p.b, p.amount);
    tally.same(model, proved, model, || format!("{p:?}"));
}

/// Every combination of edge values, then random postings.
pub fn fields(tally: &mut Tally) {
    for kind in EDGE_KINDS {
        for a in EDGE_ACCOUNTS {
            for b in EDGE_ACCOUNTS {
                for amount in EDGE_AMOUNTS {
                    let owner = 0;
                    same_fields(
                        tally,
                        &Posting {
                            owner,
                            kind,
                            a,
                            b,
                            amount,
                        },
                    );
                }
            }
        }
    }
    let mut rng = Prng::new(1);
    for _ in 0..20_000 {
        same_fields(tally, &sound_posting(&mut rng, 16));
        same_fields(tally, &odd_posting(&mut rng));
    }
}

/// Every matrix there is.
pub fn matrices(tally: &mut Tally) {
    for matrix in 0..=u16::MAX {
        let proved = (proved::symmetric(matrix), proved::has_fixed_pairs(matrix));
        let model = (matrix_symmetric(matrix), matrix_has_fixed_pairs(matrix));
        tally.same(model.0, proved, model, || format!("{matrix:#06x}"));
    }
}

/// The papers know no account past 15 but in a NET of the whole house, and the model is not asked for one elsewhere:
/// each such number is given to it as one that was not used before, by which nothing is shared. There are few of them
/// in a table. A posting without any account shares none with a NET of the whole house either: it is given to the model
/// with a kind that conflicts with nothing.
fn own_accounts(p: &Posting, unused: &mut u8) -> Posting {
    if nets_house(p) {
        return *p;
    }
    if !(0..ACCOUNTS as u8).any(|account| touches(p, account)) {
        return Posting { kind: KINDS, ..*p };
    }
    let mut known = |account| {
        if usize::from(account) < ACCOUNTS {
            return account;
        }
        *unused += 1;
        *unused - 1
    };
    Posting {
        a: known(p.a),
        b: known(p.b),
        ..*p
    }
}

fn same_conflict(tally: &mut Tally, matrix: u16, m: usize, p: &Posting, x: usize, q: &Posting) {
    let mut unused = ACCOUNTS as u8;
    let [own_p, own_q] = [p, q].map(|posting| own_accounts(posting, &mut unused));
    let model = m != x && conflict(matrix, &own_p, &own_q);
    let proved = proved::conflicting(matrix, m, p, x, q);
    tally.same(model, proved, model, || {
        format!("{matrix:#06x} {m} {p:?} {x} {q:?}")
    });
}

/// All pairs of kinds on all choices among three accounts, and of each posting with a NET of the whole house, both ways
/// round, under matrices with and without each pair.
fn conflicts_by_kind(tally: &mut Tally) {
    let mut rng = Prng::new(2);
    let mut matrices = vec![0, u16::MAX, FIXED_PAIRS];
    matrices.extend((0..9).map(|_| legal_matrix(&mut rng)));
    for matrix in matrices {
        for choice in 0..16 * 81 {
            let account = |place: u32| (choice / 16 / 3u32.pow(place) % 3) as u8 + 13;
            let [p, q] = [0, 1].map(|second| Posting {
                owner: 0,
                kind: (choice / 4u32.pow(second) % 4) as u8,
                a: account(2 * second),
                b: account(2 * second + 1),
                amount: 0,
            });
            same_conflict(tally, matrix, 5, &p, 6, &q);
            same_conflict(tally, matrix, 5, &p, 6, &HOUSE_NET);
            same_conflict(tally, matrix, 5, &HOUSE_NET, 6, &q);
        }
        same_conflict(tally, matrix, 5, &HOUSE_NET, 6, &HOUSE_NET);
    }
}

pub fn conflicts(tally: &mut Tally) {
    conflicts_by_kind(tally);
    let mut rng = Prng::new(3);
    for _ in 0..100_000 {
        let accounts = rng.pick(&[2, 3, 16]);
        let [p, q] = [(); 2].map(|()| {
            if rng.percent(30) {
                odd_posting(&mut rng)
            } else {
                sound_posting(&mut rng, accounts)
            }
        });
        let m = rng.pick(&[0, 1, 63, 64, 254, 255, 256, 257, usize::MAX]);
        let x = rng.pick(&[0, 1, 63, 64, 255, 256, usize::MAX, m]);
        let q = if rng.percent(10) { p } else { q };
        same_conflict(tally, any_matrix(&mut rng), m, &p, x, &q);
    }
}

/// C(m) of the model's board with these postings; nothing for bytes that are no table, or no m of it.
fn family(board: &mut Board, matrix: u16, rows: &[u8], m: usize) -> Option<Set> {
    let table = postings(rows).filter(|table| m < table.len())?;
    let mut unused = ACCOUNTS as u8;
    let own = table.iter().map(|p| own_accounts(p, &mut unused));
    board.matrix = matrix;
    board.postings = own.collect();
    Some(board.family(m))
}

pub fn conflict_sets(tally: &mut Tally) {
    let mut rng = Prng::new(4);
    let mut board = Board::blank();
    for _ in 0..50_000 {
        let table = sound_table(&mut rng);
        let mut bytes = rows(&table);
        if rng.percent(20) {
            damage_rows(&mut rng, &mut bytes);
        }
        let matrix = any_matrix(&mut rng);
        let inside = rng.below(table.len().max(1) as u64) as usize;
        let beyond = rng.pick(&[table.len(), 63, 64, POSTINGS - 1, POSTINGS, usize::MAX]);
        let m = rng.pick(&[inside, inside, inside, inside, beyond]);
        let few = rng.below(WORDS as u64) as usize;
        let room = rng.pick(&[WORDS, WORDS, WORDS, WORDS, WORDS + 1, WORDS + 3, few]);
        let mut out: Vec<u64> = (0..room).map(|_| rng.word()).collect();
        let mut wanted = out.clone();
        let mut answer = REFUSED;
        if let Some(set) = family(&mut board, matrix, &bytes, m).filter(|_| room >= WORDS) {
            answer = DONE;
            wanted[..WORDS].copy_from_slice(&set.words);
        }
        let given = proved::conflict_set(matrix, &bytes, m, &mut out);
        tally.same(answer == DONE, (given, out), (answer, wanted), || {
            format!("{matrix:#06x} {m} {bytes:?}")
        });
    }
}
