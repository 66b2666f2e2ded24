// Holds: the program's text byte for byte, the file's marks and bounds, and runs judged at each event.
// Rests on: the model, common.

mod common;

use common::MISUSES;
use model::gen::{legal_start, mix_for, random_run};
use model::malform::{any_file, malformed_file, refused_file, sound_file, FLAWS};
use model::prng::Prng;
use model::program::show;
use model::runfile::{decode_event, encode_event, EVENT, HEADER};
use model::*;
use std::fmt::Write;

const HEAD: [u8; HEADER] = [b'R', b'U', b'N', 0, 1, 3, 1, 0x5B, 0x6C];

fn file(events: &[[u8; EVENT]]) -> Vec<u8> {
    [HEAD.as_slice(), events.as_flattened()].concat()
}

const OFFER: [u8; EVENT] = [1, 0, 0, 1, 2, 0, 0, 0x03, 0xE8, 255];
const FIRST_0: [u8; EVENT] = [2, 0, 0, 0, 0, 0, 0, 0, 0, 255];

#[test]
fn whole_case() {
    let text = "E 1 ok\nE 2 ok\nE 3 no 11\nS 0 up\nS 1 up\nS 2 up\nL\nQ no\n";
    assert_eq!(run(&file(&[OFFER, FIRST_0, FIRST_0])), text);
}

#[test]
fn no_events() {
    assert_eq!(run(&HEAD), "S 0 up\nS 1 up\nS 2 up\nL\nQ yes\n");
}

#[test]
fn records_log_and_down() {
    let mut board = Board::start(3, 1, 0x5B6C).0;
    let mut calls = vec![
        Call::Offer {
            site: 0,
            kind: 1,
            a: 4,
            b: 4,
            amount: 250,
            cut: None,
        },
        Call::Offer {
            site: 1,
            kind: 2,
            a: 4,
            b: 4,
            amount: 0,
            cut: None,
        },
    ];
    for call in &calls {
        board.apply(call).unwrap();
    }
    while let Some(call) = board.next_event() {
        board.apply(&call).unwrap();
        calls.push(call);
    }
    calls.push(Call::Crash { site: 2 });
    let whole = Run {
        n: 3,
        f: 1,
        matrix: 0x5B6C,
        calls,
    };
    let text = run(&encode(&whole).unwrap());
    let end = "S 0 up 0 1\nS 1 up 0 1\nS 2 down 0 1\nL 0 1\nQ yes\n";
    assert!(text.ends_with(end), "{text}");
    assert!(text.lines().all(|l| !l.ends_with(' ')));
}

/// Posting 255 and the cut byte 255 have nothing to do with each other.
#[test]
fn the_last_posting_in_a_file() {
    let mut events = vec![OFFER; 257];
    events.extend([
        [2, 0, 255, 0, 1, 0, 0, 0, 0, 255],
        [2, 0, 255, 0, 1, 0, 0, 0, 0, 255],
        [2, 0, 255, 0, 2, 0, 0, 0, 0, 4],
        [2, 1, 255, 1, 0, 0, 0, 0, 0, 255],
        [3, 255, 0, 0, 0, 0, 0, 0, 0, 255],
        [2, 0, 255, 0, 2, 0, 0, 0, 0, 0],
    ]);
    let text = run(&file(&events));
    let lines: Vec<&str> = text.lines().collect();
    assert!(lines[..256].iter().all(|line| line.ends_with(" ok")));
    let wanted = [
        "E 257 no 10",
        "E 258 ok",
        "E 259 no 11",
        "E 260 no 15",
        "E 261 ok",
        "E 262 no 12",
        "E 263 ok",
        "S 0 up",
        "S 1 up",
        "S 2 down",
        "L",
        "Q no",
    ];
    assert_eq!(lines[256..], wanted);
}

/// Account 255 and the cut byte 255 have nothing to do with each other: a NET of the whole house may be cut.
#[test]
fn the_whole_house_in_a_file() {
    let house = |cut| [1, 2, 3, 255, 255, 0, 0, 0, 0, cut];
    let mut events = vec![OFFER, house(255), house(4)];
    events.extend(MISUSES.map(|(kind, a, b, amount)| {
        let [w, x, y, z] = amount.to_be_bytes();
        [1, 1, kind, a, b, w, x, y, z, 255]
    }));
    events.extend([house(0), [2, 0, 1, 2, 0, 0, 0, 0, 0, 255], house(255)]);
    let text = run(&file(&events));
    let answers: Vec<&str> = text
        .lines()
        .filter_map(|line| line.strip_prefix("E ")?.split_once(' '))
        .map(|(_, answer)| answer)
        .collect();
    let (before, rest) = answers.split_at(3);
    let (misused, after) = rest.split_at(MISUSES.len());
    assert_eq!(before, ["ok", "ok", "no 15"]);
    assert!(misused.iter().all(|&answer| answer == "no 9"), "{text}");
    assert_eq!(after, ["ok", "ok", "no 8"]);
    assert!(text.ends_with("S 0 up\nS 1 up\nS 2 down\nL\nQ no\n"));
}

#[test]
fn what_fits_an_event() {
    let receive = |posting, cut| Call::Receive {
        form: 3,
        posting,
        from: 1,
        to: 2,
        cut,
    };
    for (cut, byte) in [(None, 255), (Some(0), 0), (Some(254), 254)] {
        let event = [2, 3, 255, 1, 2, 0, 0, 0, 0, byte];
        assert_eq!(encode_event(&receive(255, cut)), Some(event));
        assert_eq!(decode_event(&event), Some(receive(255, cut)));
        assert_eq!(encode_event(&receive(256, cut)), None);
    }
    assert_eq!(encode_event(&receive(255, Some(255))), None);
    let order = [3, 255, 0, 0, 0, 0, 0, 0, 0, 255];
    assert_eq!(encode_event(&Call::Order { posting: 255 }), Some(order));
    assert_eq!(encode_event(&Call::Order { posting: 256 }), None);
}

/// 256 RATEs of one account: a drain receives every FIRST before any SECOND, so all of them go by the log.
#[test]
fn a_text_of_all_postings() {
    let mut board = Board::start(3, 1, 0x5B6C).0;
    for m in 0..256 {
        assert_eq!(board.offer(m % 3, 1, 4, 4, m, None), Ok(m as u8));
    }
    board.drain(27_136).unwrap();
    let all = (0..256).fold(String::new(), |text, m| format!("{text} {m}"));
    let mut text = String::new();
    show(&board, &mut text);
    let wanted = format!("S 0 up{all}\nS 1 up{all}\nS 2 up{all}\nL{all}\nQ yes\n");
    assert!(text == wanted, "{text}");
}

#[test]
fn malformed_by_hand() {
    let bad = |bytes: &[u8]| assert_eq!(run(bytes), "F 1\n", "{bytes:?}");
    bad(b"");
    bad(&HEAD[..8]);
    bad(&[HEAD.as_slice(), &[0]].concat());
    bad(&file(&[OFFER])[..18]);
    for at in 0..5 {
        let mut head = HEAD;
        head[at] ^= 1;
        bad(&head);
    }
    for code in [0, 6, 255] {
        bad(&file(&[[code, 0, 0, 0, 0, 0, 0, 0, 0, 255]]));
    }
    for (code, used) in [(2, 5), (3, 2), (4, 2), (5, 2)] {
        for at in used..9 {
            let mut event = [code, 0, 0, 0, 0, 0, 0, 0, 0, 255];
            event[at] = 1;
            bad(&file(&[OFFER, event]));
        }
    }
    for code in [3, 5] {
        for cut in 0..255 {
            bad(&file(&[[code, 0, 0, 0, 0, 0, 0, 0, 0, cut]]));
        }
    }
    bad(&file(&[FIRST_0; MAX_EVENTS + 1]));
    assert!(run(&file(&[FIRST_0; MAX_EVENTS])).contains("\nE 4096 no 11\nS 0 up\n"));
}

#[test]
fn values_are_judged_by_the_event() {
    let text = run(&file(&[
        [2, 4, 0, 0, 0, 0, 0, 0, 0, 255],
        [2, 255, 255, 255, 0, 0, 0, 0, 0, 0],
        [1, 0, 9, 1, 2, 0, 0, 0, 1, 0],
        [1, 0, 0, 1, 2, 255, 255, 255, 255, 255],
        [4, 3, 0, 0, 0, 0, 0, 0, 0, 0],
        [4, 2, 0, 0, 0, 0, 0, 0, 0, 254],
        [3, 255, 0, 0, 0, 0, 0, 0, 0, 255],
        [5, 200, 0, 0, 0, 0, 0, 0, 0, 255],
        [1, 0, 0, 1, 2, 0, 0, 0, 1, 4],
        [1, 0, 0, 1, 2, 0, 0, 0, 1, 3],
    ]));
    let answers: Vec<&str> = text.lines().take(10).map(|l| &l[4..]).collect();
    let wanted = [
        "no 11", "no 7", "no 9", "no 9", "no 7", "no 13", "no 12", "no 7", "no 15", " ok",
    ];
    assert_eq!(answers, wanted);
}

#[test]
fn refused_starts() {
    for (n, f, matrix, number) in [
        (2, 9, 0, 2),
        (8, 0, 0x5B6C, 2),
        (255, 0, 0x5B6C, 2),
        (4, 2, 1, 3),
        (7, 4, 0x5B6C, 3),
        (3, 255, 0x5B6C, 3),
        (3, 1, 0x5B6E, 4),
        (3, 1, 0x0002, 4),
        (3, 1, 0, 5),
        (3, 1, 0x5B4C, 5),
    ] {
        let start = Run {
            n,
            f,
            matrix,
            calls: vec![],
        };
        let mut bytes = encode(&start).unwrap();
        assert_eq!(run(&bytes), format!("F {number}\n"));
        bytes.push(0);
        assert_eq!(run(&bytes), "F 1\n");
    }
}

#[test]
fn random_files_are_what_they_claim() {
    let mut rng = Prng::new(31);
    for _ in 0..300 {
        let events = rng.below(60) as usize;
        let bytes = sound_file(&mut rng, events);
        let whole = decode(&bytes).unwrap();
        assert_eq!(whole.calls.len(), events);
        assert_eq!(encode(&whole).unwrap(), bytes);
        assert!(!run(&bytes).starts_with('F'));
        let text = run(&refused_file(&mut rng, events));
        assert!(["F 2\n", "F 3\n", "F 4\n", "F 5\n"].contains(&text.as_str()));
        for flaw in FLAWS {
            let bytes = malformed_file(&mut rng, events, flaw);
            assert_eq!(run(&bytes), "F 1\n", "{flaw:?}");
        }
        assert!(any_file(&mut rng).len() < HEADER + EVENT * (MAX_EVENTS + 4));
    }
}

/// The program skips refusal 6; judging the board at each event gives the same text.
#[test]
fn judged_runs_print_the_same() {
    let mut rng = Prng::new(32);
    for round in 0..60 {
        let start = legal_start(&mut rng);
        let events = if round % 20 == 0 { MAX_EVENTS } else { 300 };
        let mix = mix_for(&mut rng, events);
        let whole = random_run(&mut rng, start, events, &mix);
        let mut board = Board::start(start.0.into(), start.1.into(), start.2).0;
        let mut text = String::new();
        for (k, call) in whole.calls.iter().enumerate() {
            match board.apply(call) {
                Ok(_) => writeln!(text, "E {} ok", k + 1).unwrap(),
                Err(r) => writeln!(text, "E {} no {}", k + 1, r.number()).unwrap(),
            }
        }
        show(&board, &mut text);
        assert_eq!(run(&encode(&whole).unwrap()), text);
    }
}
