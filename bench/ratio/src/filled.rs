// Holds: run files after which each of seven sites has all the postings that a board holds in its record.
// Rests on: the model.

use model::posting::{CALL, EVERY_ACCOUNT, MAX_AMOUNT, MAX_RATE, NET, RATE, TRADE};
use model::prng::Prng;
use model::runfile::encode;
use model::{Board, Call, Run, Site, ACCOUNTS, FIRST, FIXED_PAIRS, POSTINGS, SECOND, SITES, THIRD};

/// As many crashes as seven sites allow, so that the fewest sites must be heard.
const F: usize = 3;
const QUORUM: usize = SITES - F;

/// The site that holds all TRADEs and RATEs, so that its THIRDs carry them.
const HOLDER: u64 = 2;

/// How many postings are sent through the log: CALLs, NETs of one account, and NETs of the whole house. Each account has
/// a CALL at least, whose entry carries what the holder has of that account.
pub struct Mix {
    pub name: &'static str,
    pub calls: usize,
    pub nets: usize,
    pub house_nets: usize,
}

/// Kind, accounts and amount.
type Fields = (u8, u64, u64, u64);

fn shuffled<T>(rng: &mut Prng, mut items: Vec<T>) -> Vec<T> {
    for k in 1..items.len() {
        items.swap(k, rng.below(k as u64 + 1) as usize);
    }
    items
}

/// Between two accounts at random, so that about half of them are above zero when they are called.
fn trade(rng: &mut Prng) -> Fields {
    let accounts = ACCOUNTS as u64;
    let a = rng.below(accounts);
    let b = (a + rng.within(1, accounts - 1)) % accounts;
    (TRADE, a, b, rng.within(1, MAX_AMOUNT))
}

/// TRADEs, and a RATE for each account: no two of them conflict.
fn not_conflicting(rng: &mut Prng, count: usize) -> Vec<Fields> {
    let accounts = 0..ACCOUNTS as u64;
    let mut all: Vec<Fields> = accounts
        .map(|a| (RATE, a, a, rng.within(1, MAX_RATE)))
        .collect();
    all.resize_with(count, || trade(rng));
    shuffled(rng, all)
}

/// The others: CALLs and then NETs, which would leave nothing to call, of all accounts in turn.
fn conflicting(rng: &mut Prng, mix: &Mix) -> Vec<Fields> {
    let of = |kind, account| (kind, account, account, 0);
    let in_turn = |kind, k| of(kind, (k % ACCOUNTS) as u64);
    let calls = (0..mix.calls).map(|k| in_turn(CALL, k)).collect();
    let mut nets: Vec<Fields> = (0..mix.nets).map(|k| in_turn(NET, k)).collect();
    nets.extend((0..mix.house_nets).map(|_| of(NET, EVERY_ACCOUNT.into())));
    let mut all = shuffled(rng, calls);
    all.extend(shuffled(rng, nets));
    all
}

fn receipt(form: usize, m: usize, from: u64, to: u64) -> Call {
    Call::Receive {
        form: form as u64,
        posting: m as u64,
        from,
        to,
        cut: None,
    }
}

/// The holder and others at random, as many as must be heard.
fn voters(rng: &mut Prng) -> Vec<u64> {
    let others = (0..SITES as u64).filter(|&site| site != HOLDER).collect();
    let others = shuffled(rng, others);
    [HOLDER].into_iter().chain(others).take(QUORUM).collect()
}

/// An offer by a site, its FIRST at the voters, and their SECONDs at the first `steps` of them.
fn voted(m: usize, fields: Fields, owner: u64, voters: &[u64], steps: usize) -> Vec<Call> {
    let (kind, a, b, amount) = fields;
    let kind = kind.into();
    let cut = None;
    let mut calls = vec![Call::Offer {
        site: owner,
        kind,
        a,
        b,
        amount,
        cut,
    }];
    calls.extend(voters.iter().map(|&to| receipt(FIRST, m, owner, to)));
    for &to in &voters[..steps] {
        calls.extend(voters.iter().map(|&from| receipt(SECOND, m, from, to)));
    }
    calls
}

/// The holder steps the posting, and holds it if it has seen none that conflicts.
fn held(rng: &mut Prng, m: usize, fields: Fields) -> Vec<Call> {
    let owner = rng.below(SITES as u64);
    voted(m, fields, owner, &voters(rng), 1)
}

/// The holder has seen a posting that conflicts and answers BAD, so that the owner makes an entry. It is ordered and read
/// by all.
fn logged(rng: &mut Prng, m: usize, fields: Fields) -> Vec<Call> {
    let owner = rng.below(SITES as u64);
    let voters = voters(rng);
    let mut calls = voted(m, fields, owner, &voters, QUORUM);
    calls.extend(voters.iter().map(|&from| receipt(THIRD, m, from, owner)));
    calls.push(Call::Order { posting: m as u64 });
    calls.extend((0..SITES as u64).map(|site| Call::Read { site, cut: None }));
    calls
}

/// The file of a mix, with as many TRADEs as there is room for. The model does its events and shows that none is refused
/// and that all records are full.
pub fn file(rng: &mut Prng, mix: &Mix) -> Vec<u8> {
    let entries = mix.calls + mix.nets + mix.house_nets;
    let first = not_conflicting(rng, POSTINGS - entries);
    let last = conflicting(rng, mix);
    let mut calls = Vec::new();
    for (m, &fields) in first.iter().enumerate() {
        calls.extend(held(rng, m, fields));
    }
    for (m, &fields) in (first.len()..).zip(&last) {
        calls.extend(logged(rng, m, fields));
    }
    let (mut board, _) = Board::start(SITES as u64, F as u64, FIXED_PAIRS);
    for call in &calls {
        assert!(board.apply_on_sound(call).is_ok(), "{call:?}");
    }
    let full = |site: &Site| site.record.len() == POSTINGS;
    assert!(board.sites.iter().all(full), "{}", mix.name);
    let run = Run {
        n: SITES as u8,
        f: F as u8,
        matrix: FIXED_PAIRS,
        calls,
    };
    encode(&run).expect("there are no more events than a file holds")
}
