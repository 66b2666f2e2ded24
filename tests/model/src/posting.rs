// Holds: postings, the rows of their table, the matrix over kinds, conflict, and the effect on figures.
// Rests on: nothing.

/// Accounts are 0 to 15, with four figures each.
pub const ACCOUNTS: usize = 16;
pub const FIGURES: usize = 4 * ACCOUNTS;

/// In both accounts of a NET: every account. It is a mark and no account, so it has no figures.
pub const EVERY_ACCOUNT: u8 = 255;

pub const KINDS: u8 = 4;
pub const TRADE: u8 = 0;
pub const RATE: u8 = 1;
pub const CALL: u8 = 2;
pub const NET: u8 = 3;

/// Where a figure stands within its account's four.
pub const POSITION: usize = 0;
pub const RATE_OF: usize = 1;
pub const CALLED: usize = 2;
pub const SETTLED: usize = 3;

/// The pairs 0-2, 0-3, 1-1, 1-2 and 2-3, both ways round; row i, column j at bit 4i + j.
pub const FIXED_PAIRS: u16 = 0x5B6C;

pub const MAX_AMOUNT: u64 = 1_000_000_000;
pub const MAX_RATE: u64 = 10_000;

#[derive(Clone, Copy, Debug, PartialEq, Eq, Default)]
pub struct Posting {
    pub owner: u8,
    pub kind: u8,
    pub a: u8,
    pub b: u8,
    pub amount: u32,
}

/// The NET of the whole house, offered by site 0.
pub const HOUSE_NET: Posting = Posting {
    owner: 0,
    kind: NET,
    a: EVERY_ACCOUNT,
    b: EVERY_ACCOUNT,
    amount: 0,
};

/// Whether the fields fit their row of the table. Only a NET may have the mark of every account, and then twice,
/// as its row asks for b = a.
pub fn fields_ok(kind: u64, a: u64, b: u64, amount: u64) -> bool {
    let account = |x: u64| x < ACCOUNTS as u64;
    match kind {
        0 => account(a) && account(b) && a != b && (1..=MAX_AMOUNT).contains(&amount),
        1 => account(a) && a == b && amount <= MAX_RATE,
        2 => account(a) && a == b && amount == 0,
        3 => (account(a) || a == u64::from(EVERY_ACCOUNT)) && a == b && amount == 0,
        _ => false,
    }
}

/// Whether this is a NET of the whole house.
pub fn nets_house(p: &Posting) -> bool {
    p.kind == NET && p.a == EVERY_ACCOUNT && p.b == EVERY_ACCOUNT
}

/// Whether a posting touches an account. What is above 15, the mark of every account too, is none, and no posting
/// touches it.
pub fn touches(p: &Posting, account: u8) -> bool {
    let named = p.a == account || p.b == account;
    usize::from(account) < ACCOUNTS && (named || nets_house(p))
}

/// Whether two postings with sound fields share an account: there is one that both touch. Each touches one at
/// least, so a NET of the whole house shares with every posting.
pub fn share(p: &Posting, q: &Posting) -> bool {
    let named = p.a == q.a || p.a == q.b || p.b == q.a || p.b == q.b;
    named || nets_house(p) || nets_house(q)
}

/// What the matrix says for two kinds; no for a kind that is none.
pub fn says(matrix: u16, i: u8, j: u8) -> bool {
    i < KINDS && j < KINDS && matrix >> (4 * i + j) & 1 == 1
}

pub fn matrix_symmetric(matrix: u16) -> bool {
    (0..KINDS).all(|i| (0..i).all(|j| says(matrix, i, j) == says(matrix, j, i)))
}

pub fn matrix_has_fixed_pairs(matrix: u16) -> bool {
    matrix & FIXED_PAIRS == FIXED_PAIRS
}

/// Whether two postings conflict, given that their numbers differ. The matrix decides by their kinds alone, also
/// for a NET of the whole house.
pub fn conflict(matrix: u16, p: &Posting, q: &Posting) -> bool {
    share(p, q) && says(matrix, p.kind, q.kind)
}

/// What a CALL adds. Only those who owe are called (document 02, W5): nothing where the position is zero or below,
/// else position × rate ÷ 10,000, rounded up.
fn margin(position: i64, rate: i64) -> i64 {
    if position <= 0 {
        return 0;
    }
    let product = position.unsigned_abs() * rate.unsigned_abs();
    product.div_ceil(MAX_RATE) as i64
}

/// Settles the position of one account.
fn settle(account: usize, figures: &mut [i64; FIGURES]) {
    let k = 4 * account;
    figures[k + SETTLED] += figures[k + POSITION];
    figures[k + POSITION] = 0;
}

/// Posts one posting with sound fields. Exact on figures reached from zeros by 256 postings: no position
/// passes 256 × 10^9 in size, so a product stays below 10^16.
pub fn effect(posting: &Posting, figures: &mut [i64; FIGURES]) {
    let a = 4 * usize::from(posting.a);
    let b = 4 * usize::from(posting.b);
    let amount = i64::from(posting.amount);
    match posting.kind {
        TRADE => {
            figures[a + POSITION] += amount;
            figures[b + POSITION] -= amount;
        }
        RATE => figures[a + RATE_OF] = amount,
        CALL => {
            figures[a + CALLED] += margin(figures[a + POSITION], figures[a + RATE_OF]);
        }
        _ => {
            let netted = (0..ACCOUNTS).filter(|&k| touches(posting, k as u8));
            netted.for_each(|k| settle(k, figures));
        }
    }
}
