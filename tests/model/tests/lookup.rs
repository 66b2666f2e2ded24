// Holds: many balances looked up at once: hand-made cases, each refusal, and boards of random runs beside a second way.
// Rests on: the model, common.

mod common;

use common::{no, receive, start, DRAIN};
use model::gen::{legal_start, mix_for, next_call};
use model::posting::MAX_AMOUNT;
use model::prng::Prng;
use model::scramble::scramble;
use model::*;

/// A site and an account.
type Pair = [u8; 2];
type Line = [i64; 4];

/// What stands in a slice before it is lent; no figure is so low.
const OLD: i64 = i64::MIN;

/// The answer to bytes handed over with a slice of so many numbers, a refusal as its number, and the slice afterwards.
fn ask(board: &Board, bytes: &[u8], room: usize) -> (Result<usize, u8>, Vec<i64>) {
    let mut lent = vec![OLD; room];
    let answer = board.look_up(bytes, &mut lent);
    (answer.map_err(Refusal::number), lent)
}

/// The bytes are refused with this number, and nothing is written.
fn refuses(board: &Board, bytes: &[u8], room: usize, number: u8) {
    let (answer, lent) = ask(board, bytes, room);
    let name = format!("{} bytes, room {room}", bytes.len());
    assert_eq!(answer, Err(number), "{name}");
    assert!(lent.iter().all(|&x| x == OLD), "{name}");
}

/// The bytes are accepted with this count, each line is that of books, and what lies beyond the lines stays.
fn accepts(board: &Board, bytes: &[u8], room: usize, count: usize) {
    let (answer, lent) = ask(board, bytes, room);
    let name = format!("{} bytes, room {room}", bytes.len());
    assert_eq!(answer, Ok(count), "{name}");
    let mut all = [0; FIGURES * SITES];
    board.books_of_all(&mut all).unwrap();
    let (pairs, _) = bytes.as_chunks::<2>();
    let (filled, rest) = lent.split_at(4 * pairs.len());
    for (line, pair) in filled.chunks(4).zip(pairs) {
        let [site, account] = pair.map(usize::from);
        assert_eq!(*line, all[64 * site + 4 * account..][..4], "{name}");
    }
    assert!(rest.iter().all(|&x| x == OLD), "{name}");
}

/// Five sites, two of them down: site 4 before anything was delivered, site 3 before the NET. Posting 4 came to sites
/// 1 and 2; posting 5 came to site 2 alone, and before posting 4.
fn five() -> Board {
    let mut board = start(5, 2);
    board.crash(4).unwrap();
    for (kind, a, b, amount) in [(0, 1, 2, 1001), (1, 1, 1, 250), (2, 1, 1, 0)] {
        board.offer(0, kind, a, b, amount, None).unwrap();
        board.drain(DRAIN).unwrap();
    }
    board.crash(3).unwrap();
    board.offer(0, 3, 1, 1, 0, None).unwrap();
    board.drain(DRAIN).unwrap();
    // Without the DELIVERs: a FIRST and three SECONDs at each of three sites, three THIRDs at the owner.
    board.offer(1, 0, 6, 7, 40, None).unwrap();
    assert_eq!(board.drain(15), Ok((15, Ending::Spent)));
    receive(&mut board, DELIVER, 4, 1, 1);
    board.offer(2, 1, 9, 9, 75, None).unwrap();
    assert_eq!(board.drain(15), Ok((15, Ending::Spent)));
    receive(&mut board, DELIVER, 5, 2, 2);
    receive(&mut board, DELIVER, 4, 1, 2);
    let records = [
        vec![0, 1, 2, 3],
        vec![0, 1, 2, 3, 4],
        vec![0, 1, 2, 3, 5, 4],
        vec![0, 1, 2],
        vec![],
    ];
    assert!(board.sites.iter().map(|s| &s.record).take(5).eq(&records));
    assert_eq!(board.down, 0b11000);
    board
}

/// Pairs in no order of sites, one of them three times, and the lines they get.
const BY_HAND: [(Pair, Line); 15] = [
    ([3, 1], [1001, 250, 26, 0]),
    ([0, 1], [0, 250, 26, 1001]),
    ([4, 1], [0, 0, 0, 0]),
    ([1, 7], [-40, 0, 0, 0]),
    ([3, 1], [1001, 250, 26, 0]),
    ([2, 9], [0, 75, 0, 0]),
    ([0, 2], [-1001, 0, 0, 0]),
    ([3, 2], [-1001, 0, 0, 0]),
    ([1, 6], [40, 0, 0, 0]),
    ([0, 6], [0, 0, 0, 0]),
    ([1, 9], [0, 0, 0, 0]),
    ([2, 7], [-40, 0, 0, 0]),
    ([2, 1], [0, 250, 26, 1001]),
    ([3, 1], [1001, 250, 26, 0]),
    ([1, 15], [0, 0, 0, 0]),
];

#[test]
fn lines_by_hand() {
    let board = five();
    let pairs = BY_HAND.map(|(pair, _)| pair);
    let lines = BY_HAND.map(|(_, line)| line);
    for more in [0, 1, 3, 4, 50] {
        let (answer, lent) = ask(&board, pairs.as_flattened(), 60 + more);
        assert_eq!(answer, Ok(4 + 5 + 6 + 3));
        assert_eq!(lent[..60], *lines.as_flattened());
        assert_eq!(lent[60..], vec![OLD; more]);
    }
    for (pair, line) in BY_HAND {
        let lengths = [4, 5, 6, 3, 0];
        let (answer, lent) = ask(&board, &pair, 4);
        assert_eq!(answer, Ok(lengths[usize::from(pair[0])]), "{pair:?}");
        assert_eq!(lent, line, "{pair:?}");
    }
}

/// Posting 4 comes to site 0 as well, by site 2's relay: a look-up shows what the record holds by then.
#[test]
fn lines_follow_the_record() {
    let mut board = five();
    let pairs = [0, 6, 3, 6, 0, 7];
    let (answer, lent) = ask(&board, &pairs, 12);
    assert_eq!((answer, lent), (Ok(7), vec![0; 12]));
    receive(&mut board, DELIVER, 4, 2, 0);
    let (answer, lent) = ask(&board, &pairs, 12);
    assert_eq!(answer, Ok(8));
    assert_eq!(lent, [40, 0, 0, 0, 0, 0, 0, 0, -40, 0, 0, 0]);
}

#[test]
fn counts_by_hand() {
    let board = five();
    let cases: [(&[u8], usize); 9] = [
        (&[], 0),
        (&[4, 0], 0),
        (&[4, 0, 4, 15, 4, 0], 0),
        (&[0, 1, 0, 1], 4),
        (&[3, 1, 4, 0, 3, 15], 3),
        (&[3, 1, 0, 1, 3, 1, 0, 2], 7),
        (&[2, 0, 1, 0, 2, 0, 1, 0, 2, 0], 11),
        (&[4, 0, 2, 0, 0, 0], 10),
        (&[4, 0, 3, 0, 2, 0, 1, 0, 0, 0], 18),
    ];
    for (pairs, count) in cases {
        accepts(&board, pairs, 2 * pairs.len(), count);
    }
}

/// Seven sites, site s with a record of 2 to the power s places: each choice of sites has a count of its own.
fn powers() -> Board {
    let mut board = start(7, 3);
    for m in 0..64 {
        board
            .offer(0, 0, m % 16, (m + 1) % 16, 1 + m, None)
            .unwrap();
    }
    for s in 0..7 {
        board.sites[s].record = (0..1 << s).collect();
    }
    board.down = 0b0100101;
    assert!(board.is_sound());
    board
}

#[test]
fn every_choice_of_sites() {
    let board = powers();
    for chosen in 0..128_usize {
        let rising = (0..7_u8).filter(|s| chosen >> s & 1 == 1);
        let once: Vec<Pair> = rising.clone().map(|s| [s, s + 9]).collect();
        let falling = rising.rev().flat_map(|s| [[s, 0], [s, 15], [s, s]]);
        let often: Vec<Pair> = falling.chain(once.clone()).collect();
        for pairs in [once, often] {
            accepts(&board, pairs.as_flattened(), 4 * pairs.len(), chosen);
        }
    }
}

/// So many pairs, not in rising order of sites or accounts: over all sites from n pairs on, since 17 has no factor in
/// common with n, and over all accounts from 16 on.
fn many(board: &Board, count: usize) -> Vec<u8> {
    let n = usize::from(board.n);
    let pairs = (0..count).map(|i| [(17 * i % n) as u8, (7 * i % 16) as u8]);
    pairs.flatten().collect()
}

/// `powers` has 127 places in all; the first pair of `many` names site 0, which has one.
#[test]
fn how_many_pairs() {
    let board = powers();
    for (pairs, count) in [(0, 0), (1, 1), (7, 127), (255, 127), (256, 127)] {
        accepts(&board, &many(&board, pairs), 4 * pairs, count);
        accepts(&board, &many(&board, pairs), 4 * pairs + 9, count);
    }
    accepts(&board, &[6, 3].repeat(256), 1024, 64);
    for pairs in [257, 258, 511, 512, 513, 65_536, 65_537] {
        refuses(&board, &many(&board, pairs), 4 * pairs, 18);
        refuses(&board, &many(&board, pairs), 4 * pairs + 9, 18);
        refuses(&board, &[6, 3].repeat(pairs), 4 * pairs, 18);
    }
}

#[test]
fn an_odd_last_byte_is_no_pair() {
    let board = powers();
    for odd in [0, 6, 7, 15, 16, 255] {
        for (pairs, count) in [(0, 0), (1, 1), (7, 127), (256, 127)] {
            let mut bytes = many(&board, pairs);
            bytes.push(odd);
            accepts(&board, &bytes, 4 * pairs, count);
            accepts(&board, &bytes, 4 * pairs + 4, count);
        }
        let mut bytes = many(&board, 257);
        bytes.push(odd);
        refuses(&board, &bytes, 2000, 18);
        refuses(&board, &[0, 1, odd], 3, 18);
        refuses(&board, &[7, 1, odd], 4, 7);
        refuses(&board, &[0, 16, odd], 4, 18);
    }
}

/// The largest that can be: 256 pairs on 256 postings delivered at seven sites, all piling up on two accounts.
#[test]
fn full_records() {
    let mut board = start(7, 0);
    for _ in 0..256 {
        board.offer(6, 0, 3, 7, MAX_AMOUNT, None).unwrap();
    }
    for s in 0..7 {
        board.sites[s].record = (0..=255).collect();
    }
    accepts(&board, &many(&board, 256), 1024, 7 * 256);
    let (answer, lent) = ask(&board, &[6, 3, 5, 7], 8);
    assert_eq!(answer, Ok(512));
    let size = 256_000_000_000;
    assert_eq!(lent, [size, 0, 0, 0, -size, 0, 0, 0]);
}

/// With fewer sites the slots from n on hold records too; they are no sites of the board.
#[test]
fn which_sites() {
    for n in 3..=7 {
        let mut board = powers();
        (board.n, board.f, board.down) = (n, 0, 0);
        board.flight = Flight::EMPTY;
        for site in 0..=255 {
            if site < n {
                accepts(&board, &[site, 4], 4, 1 << site);
            } else {
                refuses(&board, &[site, 4], 4, 7);
            }
        }
        let whole = (1 << n) - 1;
        accepts(&board, &many(&board, 256), 1024, whole);
        for place in [0, 1, 128, 255] {
            let mut bytes = many(&board, 256);
            bytes[2 * place] = n;
            refuses(&board, &bytes, 1024, 7);
        }
    }
}

#[test]
fn which_accounts() {
    let board = five();
    for account in 0..=255 {
        if account < 16 {
            accepts(&board, &[3, account], 4, 3);
        } else {
            refuses(&board, &[3, account], 4, 18);
        }
        for place in [0, 1, 128, 255] {
            let mut bytes = many(&board, 256);
            bytes[2 * place + 1] = account;
            if account < 16 {
                accepts(&board, &bytes, 1024, 18);
            } else {
                refuses(&board, &bytes, 1024, 18);
            }
        }
    }
}

#[test]
fn how_long_a_slice() {
    let board = five();
    // The first two pairs name the sites 0 and 2.
    for (pairs, count) in [(1, 4), (2, 10), (5, 18), (255, 18), (256, 18)] {
        let bytes = many(&board, pairs);
        for more in [0, 1, 2, 3, 4, 5, 1024] {
            accepts(&board, &bytes, 4 * pairs + more, count);
        }
        for less in [1, 2, 3, 4] {
            refuses(&board, &bytes, 4 * pairs - less, 18);
        }
        refuses(&board, &bytes, pairs, 18);
        refuses(&board, &bytes, 0, 18);
    }
    for room in [0, 1, 4, 64] {
        accepts(&board, &[], room, 0);
    }
}

/// Bytes, the numbers lent, and the refusal on a board of five sites.
fn refused_requests() -> Vec<(Vec<u8>, usize, u8)> {
    let long = |change: fn(&mut Vec<u8>)| {
        let mut bytes = [1, 2].repeat(257);
        change(&mut bytes);
        bytes
    };
    vec![
        // 18: an account, the slice, and both.
        (vec![1, 16], 4, 18),
        (vec![1, 2, 1, 3], 7, 18),
        (vec![1, 2, 1, 255], 0, 18),
        // 7 in the pair with the account, before it and after it.
        (vec![5, 16], 4, 7),
        (vec![5, 2, 1, 16], 8, 7),
        (vec![1, 16, 5, 2], 8, 7),
        // 7 with a short slice.
        (vec![5, 2], 3, 7),
        (vec![1, 2, 255, 2], 0, 7),
        // Too many pairs, alone and with an account and the slice; 7 then in the first, the 256th and the last.
        (long(|_| {}), 1028, 18),
        (long(|b| b[513] = 99), 3, 18),
        (long(|b| b[0] = 5), 1028, 7),
        (long(|b| b[510] = 5), 1028, 7),
        (long(|b| b[512] = 5), 1028, 7),
        // All causes at once, in one pair and in three.
        (long(|b| b[512..].fill(255)), 3, 7),
        (long(|b| (b[3], b[512]) = (16, 5)), 0, 7),
    ]
}

#[test]
fn which_refusal_wins() {
    let board = five();
    let mut unsound = five();
    unsound.sites[1].record.push(0);
    assert_eq!(unsound.cause(), Some(Cause::Twice));
    for (bytes, room, number) in refused_requests() {
        refuses(&board, &bytes, room, number);
        refuses(&unsound, &bytes, room, 6);
        refuses(&Board::blank(), &bytes, room, 6);
    }
    // The record that is wrong need not be one that is named; without any pair the board is judged all the same.
    for bytes in [[0, 1].as_slice(), &[1, 1], &[4, 9, 3, 1], &[], &[9]] {
        assert_eq!(no(board.look_up(bytes, &mut [0; 8])), 0);
        refuses(&unsound, bytes, 8, 6);
        refuses(&Board::blank(), bytes, 8, 6);
    }
}

/// The four numbers of an account after one posting more.
fn posted(line: Line, account: u8, posting: &Posting) -> Line {
    let [position, rate, called, settled] = line;
    let amount = i64::from(posting.amount);
    let (first, second) = (posting.a == account, posting.b == account);
    let house = posting.a == 255;
    match posting.kind {
        0 if first => [position + amount, rate, called, settled],
        0 if second => [position - amount, rate, called, settled],
        1 if first => [position, amount, called, settled],
        2 if first && position > 0 => {
            let margin = (position * rate + 9_999) / 10_000;
            [position, rate, called + margin, settled]
        }
        3 if first || house => [0, rate, called, settled + position],
        _ => line,
    }
}

/// The second way: the record of each site named is gone through once, and each place is put into all lines of that
/// site. The places are counted as they come.
fn second_way(board: &Board, pairs: &[Pair]) -> (usize, Vec<Line>) {
    let mut lines = vec![[0; 4]; pairs.len()];
    let mut visited = 0;
    for (s, site) in (0..board.n).zip(&board.sites) {
        let named: Vec<usize> = (0..pairs.len()).filter(|&i| pairs[i][0] == s).collect();
        if named.is_empty() {
            continue;
        }
        for &m in &site.record {
            visited += 1;
            let posting = &board.postings[usize::from(m)];
            for &i in &named {
                lines[i] = posted(lines[i], pairs[i][1], posting);
            }
        }
    }
    (visited, lines)
}

/// The first refusal that applies, of those a look-up has.
fn refusal(sound: bool, n: u8, pairs: &[Pair], room: usize) -> Option<u8> {
    let mut applies = Vec::new();
    for &[site, account] in pairs {
        applies.extend((site >= n).then_some(7));
        applies.extend((account > 15).then_some(18));
    }
    applies.extend((pairs.len() > 256).then_some(18));
    applies.extend((room < 4 * pairs.len()).then_some(18));
    applies.extend((!sound).then_some(6));
    applies.into_iter().min()
}

/// A board of a random run: as the run leaves it, drained, or changed beyond what a run reaches.
fn any_board(rng: &mut Prng) -> Board {
    let (n, f, matrix) = legal_start(rng);
    let mut board = Board::start(n.into(), f.into(), matrix).0;
    let events = rng.pick(&[60, 200, 560]);
    let mix = mix_for(rng, events);
    for _ in 0..events {
        let call = next_call(rng, &board, &mix);
        let _ = board.apply_on_sound(&call);
    }
    match rng.below(5) {
        0 => assert!(board.drain(DRAIN).is_ok()),
        1 => scramble(rng, &mut board, 40),
        _ => {}
    }
    board
}

/// One number changed, after which a board is unsound, whatever it was.
fn made_unsound(rng: &mut Prng, mut board: Board) -> Board {
    let site = rng.below(board.n.into()) as usize;
    match rng.below(4) {
        0 => board.n = rng.pick(&[0, 2, 8, 255]),
        1 => board.f = board.n,
        2 => board.down |= 0x80,
        _ => board.sites[site].place = board.log.len() + 1,
    }
    board
}

/// Pairs over some of the sites, a few with a site or an account that is none, mostly a fitting slice, and at times an
/// odd last byte.
fn any_request(rng: &mut Prng, n: u8) -> (Vec<u8>, usize) {
    let any = rng.below(257);
    let pairs = rng.pick(&[any, any, any, any % 8, any % 8, 1, 255, 256, 257]) as usize;
    let mut sites: Vec<u8> = (0..n).filter(|_| rng.percent(50)).collect();
    sites.push(rng.below(n.into()) as u8);
    let mut bytes = Vec::new();
    for _ in 0..pairs {
        bytes.extend([rng.pick(&sites), rng.below(16) as u8]);
    }
    if pairs > 0 && rng.percent(12) {
        bytes[2 * rng.below(pairs as u64) as usize] = rng.pick(&[n, n + 1, 128, 255]);
    }
    if pairs > 0 && rng.percent(12) {
        bytes[2 * rng.below(pairs as u64) as usize + 1] = rng.pick(&[16, 17, 128, 255]);
    }
    if rng.percent(25) {
        bytes.push(rng.word() as u8);
    }
    let (exact, more) = (4 * pairs, rng.below(40) as usize);
    let short = exact.saturating_sub(1 + more);
    let room = rng.pick(&[exact, exact, exact, exact + 1, exact + more, short]);
    (bytes, room)
}

/// What came up in the requests so far.
#[derive(Default)]
struct Reached {
    accepted: usize,
    /// By their numbers.
    refused: [usize; 19],
    /// A site that is down, with something in its record, was named.
    down: usize,
    /// Some site was not named although its record holds something.
    left_out: usize,
    /// Two sites gave one account different lines.
    differing: usize,
    /// Lines in which each of the four numbers was other than 0.
    not_zero: [usize; 4],
}

impl Reached {
    fn note(&mut self, board: &Board, pairs: &[Pair], lines: &[Line]) {
        self.accepted += 1;
        let holds = |s: u8| !board.sites[usize::from(s)].record.is_empty();
        let down = |&[s, _]: &Pair| !board.is_up(s.into()) && holds(s);
        self.down += usize::from(pairs.iter().any(down));
        let left_out = |s: u8| holds(s) && pairs.iter().all(|pair| pair[0] != s);
        self.left_out += usize::from((0..board.n).any(left_out));
        let mut of_account = [None; ACCOUNTS];
        let differs = |(pair, line): (&Pair, &Line)| {
            let first = of_account[usize::from(pair[1])].get_or_insert(*line);
            first != line
        };
        self.differing += usize::from(pairs.iter().zip(lines).any(differs));
        for line in lines {
            for (count, number) in self.not_zero.iter_mut().zip(line) {
                *count += usize::from(*number != 0);
            }
        }
    }

    fn check(&self) {
        let refused = [6, 7, 18].map(|number: usize| self.refused[number]);
        assert!(refused.iter().all(|&count| count > 200), "{refused:?}");
        let some = [self.down, self.left_out, self.differing];
        assert!(some.iter().all(|&count| count > 100), "{some:?}");
        assert!(self.not_zero.iter().all(|&count| count > 1000));
        assert!(self.accepted > 2000, "{}", self.accepted);
    }
}

/// One random request, held against the second way and the books.
fn check_request(rng: &mut Prng, board: &Board, sound: bool, reached: &mut Reached) {
    let (bytes, room) = any_request(rng, board.n.clamp(3, 7));
    let (pairs, _) = bytes.as_chunks::<2>();
    if let Some(number) = refusal(sound, board.n, pairs, room) {
        refuses(board, &bytes, room, number);
        reached.refused[usize::from(number)] += 1;
        return;
    }
    let (visited, lines) = second_way(board, pairs);
    accepts(board, &bytes, room, visited);
    let (_, lent) = ask(board, &bytes, room);
    assert_eq!(lent[..4 * pairs.len()], *lines.as_flattened());
    let all: usize = board.sites.iter().map(|site| site.record.len()).sum();
    assert!(visited <= all);
    reached.note(board, pairs, &lines);
}

#[test]
fn random_boards_and_pairs() {
    let mut rng = Prng::new(103);
    let mut reached = Reached::default();
    for _ in 0..300 {
        let board = any_board(&mut rng);
        for _ in 0..20 {
            check_request(&mut rng, &board, true, &mut reached);
        }
        let unsound = made_unsound(&mut rng, board);
        for _ in 0..2 {
            check_request(&mut rng, &unsound, false, &mut reached);
        }
    }
    reached.check();
}
