// Holds: random starts, calls and runs, leaning towards what the board at hand would accept.
// Rests on: prng, odd, board, call, runfile, posting, flight, set.

use crate::board::Board;
use crate::call::Call;
use crate::flight::Message;
use crate::odd::spoil;
use crate::posting::{EVERY_ACCOUNT, FIXED_PAIRS, MAX_AMOUNT, MAX_RATE, NET};
use crate::prng::Prng;
use crate::runfile::Run;
use crate::set::{has_site, members, POSTINGS, WORDS};

/// What a run is made of; the shares are in a hundred events.
#[derive(Clone, Copy, Debug)]
pub struct Mix {
    /// Postings use the accounts below this, 2 to 16, but for NETs of the whole house: few accounts make many
    /// conflicts.
    pub accounts: u64,
    pub offers: u64,
    pub crashes: u64,
    /// Offers, receipts and reads that are cut, as long as f allows it.
    pub cuts: u64,
    /// Calls with arguments changed at random.
    pub odd: u64,
    /// Arguments may be too large for a run file.
    pub wide: bool,
    /// Which messages are hurried: see `liking`. Below `TASTES`, or one of the `LEADS` from there on.
    pub taste: u64,
}

pub const TASTES: u64 = 7;
/// The tastes from `TASTES` on begin with a lead of offers, and then hurry the last few of these.
pub const LEADS: u64 = WORDS as u64;
const HURRIED: u64 = 3;
/// Postings in no record, from which on the share of offers rests.
const MANY: usize = 64;
/// NETs of the whole house in a hundred offers, before any is changed at random: one of twenty.
pub const HOUSE_NETS: u64 = 5;

pub fn random_mix(rng: &mut Prng) -> Mix {
    Mix {
        accounts: rng.pick(&[2, 2, 3, 5, 16]),
        offers: rng.pick(&[2, 5, 10, 30]),
        crashes: rng.pick(&[0, 0, 1, 3]),
        cuts: rng.pick(&[0, 1, 3, 10]),
        odd: rng.pick(&[0, 5, 20, 50]),
        wide: false,
        taste: random_taste(rng),
    }
}

/// Those with a lead are few: a board with many postings takes long to become quiet.
fn random_taste(rng: &mut Prng) -> u64 {
    if rng.percent(8) {
        rng.within(TASTES, TASTES + LEADS - 1)
    } else {
        rng.below(TASTES)
    }
}

/// A mix for a run of so many events. A lead is more frequent here, but is none that takes over half of the run.
pub fn mix_for(rng: &mut Prng, events: usize) -> Mix {
    let mut mix = random_mix(rng);
    let leading = TASTES..TASTES + LEADS;
    let fitting: Vec<u64> = leading
        .filter(|&taste| 2 * lead(taste) <= events as u64)
        .collect();
    if !fitting.is_empty() && rng.percent(25) {
        mix.taste = rng.pick(&fitting);
    } else if mix.taste >= TASTES {
        mix.taste = rng.below(TASTES);
    }
    mix
}

/// How many postings a taste offers before anything else: a few past each further word of a set, or all that
/// there can be.
fn lead(taste: u64) -> u64 {
    if taste < TASTES {
        return 0;
    }
    let words = taste - TASTES + 1;
    (POSTINGS as u64).min(words * u64::from(u64::BITS) + HURRIED)
}

/// The fixed pairs, with each of the five free pairs at random.
pub fn legal_matrix(rng: &mut Prng) -> u16 {
    let mut matrix = FIXED_PAIRS;
    for pair in [0x0001, 0x0012, 0x2080, 0x0400, 0x8000] {
        if rng.percent(40) {
            matrix |= pair;
        }
    }
    matrix
}

/// One bit of a legal matrix flipped: not symmetric, or without a fixed pair, or still legal.
pub fn flipped_matrix(rng: &mut Prng) -> u16 {
    legal_matrix(rng) ^ 1 << rng.below(16)
}

pub fn legal_start(rng: &mut Prng) -> (u8, u8, u16) {
    let n = rng.within(3, 7) as u8;
    let f = rng.below(u64::from(n).div_ceil(2)) as u8;
    (n, f, legal_matrix(rng))
}

/// Numbers for a start that is refused for one cause or several.
pub fn refused_start(rng: &mut Prng) -> (u8, u8, u16) {
    loop {
        let (mut n, mut f, mut matrix) = legal_start(rng);
        if rng.percent(40) {
            n = rng.pick(&[0, 1, 2, 8, 9, 255]);
        }
        if rng.percent(40) {
            f = rng.pick(&[2, 3, 4, 127, 128, 255]);
        }
        if rng.percent(60) {
            matrix = flipped_matrix(rng);
        }
        if rng.percent(20) {
            matrix = rng.word() as u16;
        }
        if Board::start(n.into(), f.into(), matrix).1.is_err() {
            return (n, f, matrix);
        }
    }
}

/// Kind, a, b and amount of any row of the table, with accounts of the mix.
fn plain_fields(rng: &mut Prng, mix: &Mix) -> (u64, u64, u64, u64) {
    let kind = rng.below(4);
    let a = rng.below(mix.accounts);
    let (mut b, mut amount) = (a, 0);
    if kind == 0 {
        b = (a + rng.within(1, mix.accounts - 1)) % mix.accounts;
        let any = rng.within(1, MAX_AMOUNT);
        amount = rng.pick(&[1, MAX_AMOUNT, any, any, 1 + any % 5000]);
    } else if kind == 1 {
        let any = rng.within(0, MAX_RATE);
        amount = rng.pick(&[0, 1, MAX_RATE, any, any]);
    }
    (kind, a, b, amount)
}

/// An offer with sound fields; one of twenty is a NET of the whole house.
fn good_offer(rng: &mut Prng, site: u64, mix: &Mix) -> Call {
    let (kind, a, b, amount) = if rng.percent(HOUSE_NETS) {
        (NET.into(), EVERY_ACCOUNT.into(), EVERY_ACCOUNT.into(), 0)
    } else {
        plain_fields(rng, mix)
    };
    Call::Offer {
        site,
        kind,
        a,
        b,
        amount,
        cut: None,
    }
}

/// How gladly a message is received; the best of a few drawn is taken.
fn liking(taste: u64, message: &Message) -> u64 {
    let Message {
        form,
        posting,
        from,
        to,
    } = *message;
    match taste {
        1 => form.into(),
        2 => 3 - u64::from(form),
        3 => posting.into(),
        4 => POSTINGS as u64 - 1 - u64::from(posting),
        5 => to.into(),
        6 => from.into(),
        TASTES.. => {
            let end = lead(taste);
            u64::from((end - HURRIED..end).contains(&posting.into()))
        }
        _ => 0,
    }
}

/// After a lead more are drawn, so that even a short run brings some of its last postings through.
fn liked(rng: &mut Prng, messages: &[Message], taste: u64) -> Option<Message> {
    let more = if taste < TASTES {
        0
    } else {
        messages.len() / 16
    };
    let drawn = (0..4 + more).map(|_| rng.pick(messages));
    drawn.max_by_key(|message| liking(taste, message))
}

/// An uncut receipt, order or read that is accepted, if there is one.
fn pending(rng: &mut Prng, board: &Board, mix: &Mix) -> Option<Call> {
    let messages = board.flight.messages(board.up());
    let readers: Vec<u64> = (0..u64::from(board.n))
        .filter(|&s| board.is_up(s as usize) && board.sites[s as usize].place < board.log.len())
        .collect();
    let oracle = !board.pool.is_empty() || !readers.is_empty();
    let skip = oracle && rng.percent(15);
    if !messages.is_empty() && !skip {
        let best = liked(rng, &messages, mix.taste)?;
        return Some(Call::Receive {
            form: best.form.into(),
            posting: best.posting.into(),
            from: best.from.into(),
            to: best.to.into(),
            cut: None,
        });
    }
    if !board.pool.is_empty() && (readers.is_empty() || rng.percent(50)) {
        let pool: Vec<usize> = members(board.pool).collect();
        let posting = rng.pick(&pool) as u64;
        return Some(Call::Order { posting });
    }
    if readers.is_empty() {
        return None;
    }
    let site = rng.pick(&readers);
    Some(Call::Read { site, cut: None })
}

/// Cuts a call that is accepted uncut after some j that fits.
fn with_cut(rng: &mut Prng, board: &Board, mut call: Call) -> Call {
    let n = u64::from(board.n);
    match &mut call {
        Call::Offer { cut, .. } => *cut = Some(rng.within(0, n)),
        Call::Receive {
            form,
            posting,
            from,
            to,
            cut,
        } => {
            let [form, posting, from, to] = [*form, *posting, *from, *to].map(|x| x as usize);
            let sends = board.sends_on_receipt(form, posting, from, to);
            *cut = Some(rng.within(0, sends.into()));
        }
        Call::Read { cut, .. } => *cut = Some(0),
        _ => {}
    }
    call
}

/// Whether the lead or the share of offers asks for one more. The share does not while many postings are in no
/// record: with all that a board holds under way, few would come through, and a drain would take long.
fn wants_offer(rng: &mut Prng, board: &Board, mix: &Mix) -> bool {
    let offered = board.postings.len();
    if mix.offers != 0 && (offered as u64) < lead(mix.taste) {
        return true;
    }
    let records = board.sites.iter().map(|site| site.record.len());
    let open = offered.saturating_sub(records.max().unwrap_or(0));
    open < MANY && rng.percent(mix.offers)
}

/// A call that the board accepts, if one was found.
fn good_call(rng: &mut Prng, board: &Board, mix: &Mix) -> Option<Call> {
    let up: Vec<u64> = (0..u64::from(board.n))
        .filter(|&s| has_site(board.up(), s as usize))
        .collect();
    let may_crash = board.down.count_ones() < u32::from(board.f);
    if may_crash && rng.percent(mix.crashes) {
        return Some(Call::Crash {
            site: rng.pick(&up),
        });
    }
    let room = board.postings.len() < POSTINGS;
    let offers = room && wants_offer(rng, board, mix);
    let waiting = if offers {
        None
    } else {
        pending(rng, board, mix)
    };
    let call = match waiting {
        Some(call) => call,
        None if room && !up.is_empty() => {
            let site = rng.pick(&up);
            good_offer(rng, site, mix)
        }
        None => return None,
    };
    if may_crash && rng.percent(mix.cuts) {
        return Some(with_cut(rng, board, call));
    }
    Some(call)
}

/// A call of any kind with plain arguments, not looking at what is pending. Crashes are few, since
/// f is soon used up and then hides refusal 15.
fn blind_call(rng: &mut Prng, board: &Board, mix: &Mix) -> Call {
    let site = rng.below(board.n.into());
    // The first number not offered is among them, as long as there is one that a file has room for.
    let posting = rng.below(POSTINGS.min(board.postings.len() + 1) as u64);
    match rng.below(40) {
        0..=9 => good_offer(rng, site, mix),
        10..=19 => Call::Receive {
            form: rng.below(4),
            posting,
            from: rng.below(board.n.into()),
            to: site,
            cut: None,
        },
        20..=29 => Call::Order { posting },
        30..=38 => Call::Read { site, cut: None },
        _ => Call::Crash { site },
    }
}

/// The next call of a run on a started board.
pub fn next_call(rng: &mut Prng, board: &Board, mix: &Mix) -> Call {
    let odd = rng.percent(mix.odd);
    // On a full board a few in any mix, so that offers are refused there.
    let full = board.postings.len() == POSTINGS;
    let good = if odd && rng.percent(40) || full && rng.percent(4) {
        None
    } else {
        good_call(rng, board, mix)
    };
    let mut call = match good {
        Some(call) => call,
        None => blind_call(rng, board, mix),
    };
    if odd {
        spoil(rng, board, mix.wide, &mut call);
    }
    call
}

/// A run of so many calls from an accepted start.
pub fn random_run(rng: &mut Prng, start: (u8, u8, u16), events: usize, mix: &Mix) -> Run {
    let (n, f, matrix) = start;
    let (mut board, _) = Board::start(n.into(), f.into(), matrix);
    let mut calls = Vec::with_capacity(events);
    for _ in 0..events {
        let call = next_call(rng, &board, mix);
        let _ = board.apply_on_sound(&call);
        calls.push(call);
    }
    Run {
        n,
        f,
        matrix,
        calls,
    }
}
