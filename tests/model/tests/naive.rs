// Holds: random runs of the model beside the slow reading of the words; all must agree at each event.
// Rests on: the model, common.

mod common;

use common::naive::Naive;
use model::gen::{legal_start, mix_for, next_call};
use model::prng::Prng;
use model::set::of;
use model::*;

#[test]
fn the_model_does_what_the_words_say() {
    let mut rng = Prng::new(77);
    let (mut delivered, mut full) = (Set::EMPTY, 0);
    for round in 0..300 {
        let (n, f, matrix) = legal_start(&mut rng);
        let events = rng.pick(&[60, 200, 560]);
        let mut mix = mix_for(&mut rng, events);
        mix.wide = round % 2 == 0;
        let mut board = Board::start(n.into(), f.into(), matrix).0;
        let mut naive = Naive::start(n.into(), f.into(), matrix);
        for _ in 0..events {
            let call = next_call(&mut rng, &board, &mix);
            let mut next = naive.clone();
            let wanted = next.apply(&call);
            if wanted.is_ok() {
                naive = next;
            }
            let answer = board.apply(&call).map(drop).map_err(Refusal::number);
            assert_eq!(answer, wanted, "{call:?}");
            assert!(naive.agrees(&board), "{call:?}");
            full += usize::from(wanted == Err(10));
        }
        for site in &board.sites {
            delivered |= of(site.record.iter().map(|&m| m.into()));
        }
    }
    assert!(full > 0, "no offer on a full board");
    assert!(delivered.words.iter().all(|&w| w != 0), "{delivered:x?}");
}
