// Holds: look-ups by value on boards with a number changed, sound and unsound, held to the model and to the books.
// Rests on: looked, met, counts, pairs, shown, changed, changes, questions, ground, programs, files; the model's rows.

use crate::changed::row_before;
use crate::counts::Counts;
use crate::files::{numbers, Sort};
use crate::ground::{Change, Ground};
use crate::looked::{look, model_looks};
use crate::met::{add_board, add_change, add_lines, add_request};
use crate::pairs::request;
use crate::programs::{left_by, Programs};
use crate::questions::{as_left, change};
use crate::shown::Shown;
use model::numbers::{posting, replaced, site, AMOUNT, DELIVERED, NUMBERS, OWNER};
use model::posting::{CALL, MAX_RATE, NET, RATE, TRADE};
use model::prng::Prng;
use model::row::read_sound;
use model::{Board, Refusal, SITES};

/// Changes to the board of each file.
const CHANGES: usize = 10;

/// The kind stands behind the owner.
const KIND: usize = OWNER + 1;

/// A file with the board that it leaves.
struct Left {
    file: Vec<u8>,
    before: Board,
    /// As the programs have it, also where a number has no meaning: a change may give it one.
    row: Vec<u64>,
}

/// Compares on one file, with several changes. The error names the file, the change and the request.
pub fn compare_changed(
    programs: &Programs,
    seed: u64,
    (sort, k): (&Sort, usize),
) -> Result<Counts, String> {
    let mut rng = numbers(seed, sort, k);
    let file = sort.file(&mut rng, k);
    let before = left_by(&file).expect("the file is well formed and its start accepted");
    let named = |cause| format!("{}, file {k} of seed {seed}, {cause}", sort.name);
    let first = as_left(&mut rng);
    let row = row_before(programs, &file, &before, &first).map_err(named)?;
    let left = Left { file, before, row };
    let mut counts = Counts::default();
    for _ in 0..CHANGES {
        let change = left.change(&mut rng);
        let done = left.compare(programs, change, &mut rng);
        counts.join(done.map_err(named)?);
    }
    Ok(counts)
}

impl Left {
    /// A place and a value: of what look-ups show, of any posting or record, or of any number.
    fn change(&self, rng: &mut Prng) -> (u64, u64) {
        let (board, row) = (&self.before, self.row.as_slice());
        let drawn = rng.below(8);
        let mut ground = Ground { rng, board, row };
        let some = match drawn {
            0 => Some(ground.posting_field()),
            1 => Some(ground.record()),
            2..=5 => self.shown_change(rng),
            _ => None,
        };
        match some {
            Some((place, value)) => (place as u64, value),
            None => {
                let (place, value, _) = change(rng, board, row);
                (place, value)
            }
        }
    }

    /// Another amount of a posting in a record, a CALL in place of a NET or the other way round, or a shorter record:
    /// the board stays sound, but for a CALL of every account. None if all records are empty.
    fn shown_change(&self, rng: &mut Prng) -> Option<Change> {
        let sites = &self.before.sites;
        let filled: Vec<usize> = (0..SITES)
            .filter(|&s| !sites[s].record.is_empty())
            .collect();
        if filled.is_empty() {
            return None;
        }
        let s = rng.pick(&filled);
        let record = &sites[s].record;
        let m = usize::from(rng.pick(record));
        Some(match self.before.postings[m].kind {
            _ if rng.percent(30) => (site(s, DELIVERED), rng.below(record.len() as u64)),
            TRADE | RATE => (posting(m, AMOUNT), rng.within(1, MAX_RATE)),
            kind => (posting(m, KIND), u64::from(CALL + NET - kind)),
        })
    }

    fn compare(
        &self,
        programs: &Programs,
        (place, value): (u64, u64),
        rng: &mut Prng,
    ) -> Result<Counts, String> {
        let row = replaced(&self.row, place, value);
        let changed = read_sound(&row);
        let board = changed.as_ref().map_err(|_| Refusal::Unsound);
        let n = board.map_or(self.before.n, |board| board.n);
        let request = request(rng, n);
        let named = |cause| format!("{}, {value} at {place}: {cause}", request.told());
        let is = look(&request, |pairs, out| {
            (programs.lookup_changed)(&self.file, place, value, pairs, out)
        });
        let done = is.compare(&model_looks(&request, board));
        done.map_err(named)?;
        let mut counts = Counts::default();
        add_request(&mut counts, &request, n, is.answer);
        if let (Ok(board), true) = (board, is.accepted()) {
            let shown = Shown::of_changed(programs, &self.file, place, value).map_err(named)?;
            is.check(&request, &shown).map_err(named)?;
            add_board(&mut counts, &request, board);
            add_lines(&mut counts, is.lines(&request));
        }
        if place >= NUMBERS as u64 {
            counts.add("past the last");
        }
        if row == self.row {
            return Ok(counts);
        }
        if is.accepted() && is != model_looks(&request, Ok(&self.before)) {
            counts.add("changed, other lines");
        }
        add_change(&mut counts, (place, value), changed.err());
        Ok(counts)
    }
}
