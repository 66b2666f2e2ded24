// Holds: the steps once more, slow and word by word, with sends as lists that a cut shortens.
// Rests on: the model, for the fields of a posting and for comparing.

use model::*;
use std::collections::{BTreeMap, BTreeSet};

type Set = BTreeSet<u64>;
type Key = (u64, u64, u64, u64);
/// Sends, then deliveries.
type Done = (Vec<Send>, Vec<u64>);

#[derive(Clone, Debug, PartialEq)]
enum Load {
    Bare,
    Word(bool),
    Set(Set),
}

enum Send {
    Message(Key, Load),
    Entry(u64, Set),
}

#[derive(Clone, Default)]
struct Place {
    down: bool,
    seen: Set,
    held: Set,
    stepped: Set,
    finished: Set,
    told: Set,
    seconds: BTreeMap<(u64, u64), bool>,
    thirds: BTreeMap<(u64, u64), Set>,
    read: usize,
    record: Vec<u64>,
}

#[derive(Clone, Default)]
pub struct Naive {
    n: u64,
    f: u64,
    matrix: u16,
    postings: Vec<[u64; 5]>,
    places: Vec<Place>,
    flight: BTreeMap<Key, Load>,
    pool: BTreeMap<u64, Set>,
    log: Vec<(u64, Set)>,
}

impl Naive {
    pub fn start(n: u64, f: u64, matrix: u16) -> Naive {
        Naive {
            n,
            f,
            matrix,
            places: vec![Place::default(); n as usize],
            ..Naive::default()
        }
    }

    fn family(&self, m: u64) -> Set {
        let posting = &self.postings[m as usize];
        let mut family = Set::from([m]);
        for (k, other) in self.postings.iter().enumerate() {
            let shared = &accounts(posting) & &accounts(other);
            let bit = 4 * posting[1] + other[1];
            if !shared.is_empty() && self.matrix & 1 << bit != 0 {
                family.insert(k as u64);
            }
        }
        family
    }

    fn alone(&self, at: u64, m: u64) -> bool {
        let seen = &self.places[at as usize].seen;
        seen.intersection(&self.family(m)).count() == 1
    }

    fn to_all(&self, form: u64, m: u64, from: u64, load: Load) -> Vec<Send> {
        (0..self.n)
            .map(|to| Send::Message((form, m, from, to), load.clone()))
            .collect()
    }

    /// Changes the sets; the sends and the deliveries are handed back.
    fn receive(&mut self, key: Key) -> Done {
        let (form, m, from, at) = key;
        match self.flight.remove(&key).unwrap() {
            Load::Bare if form == 0 => {
                self.places[at as usize].seen.insert(m);
                let good = self.alone(at, m);
                (self.to_all(1, m, at, Load::Word(good)), vec![])
            }
            Load::Word(good) => self.second(m, from, at, good),
            Load::Set(set) => self.third(m, from, at, set),
            Load::Bare => self.deliver(m, at),
        }
    }

    fn second(&mut self, m: u64, from: u64, at: u64, good: bool) -> Done {
        let heard = (self.n - self.f) as usize;
        let place = &mut self.places[at as usize];
        place.seconds.entry((m, from)).or_insert(good);
        let words = place.seconds.range((m, 0)..(m + 1, 0));
        let (count, goods) = (words.clone().count(), words.filter(|w| *w.1).count());
        if count < heard || !place.stepped.insert(m) {
            return (vec![], vec![]);
        }
        place.seen.insert(m);
        if 2 * goods > self.n as usize && self.alone(at, m) {
            self.places[at as usize].held.insert(m);
        }
        let share = &self.places[at as usize].held & &self.family(m);
        let owner = self.postings[m as usize][0];
        let third = Send::Message((2, m, at, owner), Load::Set(share));
        (vec![third], vec![])
    }

    fn third(&mut self, m: u64, from: u64, at: u64, set: Set) -> Done {
        let heard = (self.n - self.f) as usize;
        let place = &mut self.places[at as usize];
        place.thirds.entry((m, from)).or_insert(set);
        let sets = place.thirds.range((m, 0)..(m + 1, 0)).map(|t| t.1);
        let count = sets.clone().count();
        let with = sets.clone().filter(|s| s.contains(&m)).count();
        let union: Set = sets.flatten().copied().collect();
        if count < heard || !place.finished.insert(m) {
            (vec![], vec![])
        } else if 2 * with > self.n as usize {
            (self.to_all(3, m, at, Load::Bare), vec![])
        } else {
            (vec![Send::Entry(m, union)], vec![])
        }
    }

    fn deliver(&mut self, m: u64, at: u64) -> Done {
        if !self.places[at as usize].told.insert(m) {
            return (vec![], vec![]);
        }
        let mut sends = self.to_all(3, m, at, Load::Bare);
        if self.postings[m as usize][0] == at {
            sends.clear();
        } else {
            sends.remove(at as usize);
        }
        (sends, vec![m])
    }

    fn judge_site(&self, sites: &[u64], acting: u64) -> Result<(), u8> {
        if sites.iter().any(|&s| s >= self.n) {
            return Err(7);
        }
        if self.places[acting as usize].down {
            return Err(8);
        }
        Ok(())
    }

    /// Sends go out, cut or not, then deliveries; on a refusal the caller drops this board.
    fn finish(
        &mut self,
        at: u64,
        (sends, deliveries): (Vec<Send>, Vec<u64>),
        cut: Option<u64>,
    ) -> Result<(), u8> {
        let count = sends.len() as u64;
        if let Some(j) = cut {
            self.go_down(at)?;
            if j > count {
                return Err(15);
            }
        }
        for send in sends.into_iter().take(cut.unwrap_or(count) as usize) {
            match send {
                Send::Message(key, load) => drop(self.flight.insert(key, load)),
                Send::Entry(m, set) => drop(self.pool.insert(m, set)),
            }
        }
        let record = &mut self.places[at as usize].record;
        for m in deliveries {
            if cut.is_none() && !record.contains(&m) {
                record.push(m);
            }
        }
        Ok(())
    }

    fn go_down(&mut self, at: u64) -> Result<(), u8> {
        if self.places.iter().filter(|p| p.down).count() as u64 + 1 > self.f {
            return Err(14);
        }
        self.places[at as usize].down = true;
        Ok(())
    }

    fn offer(&mut self, posting: [u64; 5], cut: Option<u64>) -> Result<(), u8> {
        let [site, kind, a, b, amount] = posting;
        self.judge_site(&[site], site)?;
        if !fields_ok(kind, a, b, amount) {
            return Err(9);
        }
        if self.postings.len() == 256 {
            return Err(10);
        }
        let m = self.postings.len() as u64;
        self.postings.push(posting);
        let firsts = self.to_all(0, m, site, Load::Bare);
        self.finish(site, (firsts, vec![]), cut)
    }

    fn read(&mut self, site: u64, cut: Option<u64>) -> Result<(), u8> {
        self.judge_site(&[site], site)?;
        let place = &mut self.places[site as usize];
        let (m, set) = self.log.get(place.read).ok_or(13)?;
        place.read += 1;
        let list = set.iter().chain([m]).copied().collect();
        self.finish(site, (vec![], list), cut)
    }

    /// On a refusal the board may be half changed; the caller works on a copy.
    pub fn apply(&mut self, call: &Call) -> Result<(), u8> {
        match *call {
            Call::Offer {
                site,
                kind,
                a,
                b,
                amount,
                cut,
            } => self.offer([site, kind, a, b, amount], cut),
            Call::Receive {
                form,
                posting,
                from,
                to,
                cut,
            } => {
                self.judge_site(&[from, to], to)?;
                let key = (form, posting, from, to);
                if !self.flight.contains_key(&key) {
                    return Err(11);
                }
                let done = self.receive(key);
                self.finish(to, done, cut)
            }
            Call::Order { posting } => {
                let entry = self.pool.remove_entry(&posting).ok_or(12)?;
                self.log.push(entry);
                Ok(())
            }
            Call::Read { site, cut } => self.read(site, cut),
            Call::Crash { site } => {
                self.judge_site(&[site], site)?;
                self.go_down(site)
            }
        }
    }

    fn flight_agrees(&self, board: &Board) -> bool {
        let messages = board.flight.messages(u8::MAX);
        let keys = messages
            .iter()
            .map(|m| (m.form.into(), m.posting.into(), m.from.into(), m.to.into()));
        let loads = self.flight.iter().all(|(&(_, m, from, to), load)| {
            let (m, from) = (m as usize, from as usize);
            match load {
                Load::Bare => true,
                Load::Word(good) => *good == (board.flight.good[m][from] >> to & 1 == 1),
                Load::Set(set) => mask(set) == board.flight.carried[m][from],
            }
        });
        loads && keys.eq(self.flight.keys().copied())
    }

    /// Whether the model's board shows the same.
    pub fn agrees(&self, board: &Board) -> bool {
        let log = self.log.iter().map(|(m, set)| (m, set));
        let mut entries = self.pool.iter().chain(log);
        let numbers = |list: &[u8]| list.iter().map(|&m| u64::from(m)).collect::<Vec<_>>();
        self.flight_agrees(board)
            && entries.all(|(&m, set)| board.entries[m as usize] == mask(set))
            && mask(&self.pool.keys().copied().collect()) == board.pool
            && self.log.iter().map(|e| e.0).eq(numbers(&board.log))
            && self.places.iter().zip(&board.sites).all(|(p, site)| {
                mask(&p.seen) == site.seen
                    && mask(&p.held) == site.held
                    && mask(&p.stepped) == site.stepped
                    && mask(&p.finished) == site.finished
                    && mask(&p.told) == site.told
                    && p.read == site.place
                    && p.record == numbers(&site.record)
            })
            && (0..self.places.len()).all(|s| self.places[s].down != board.is_up(s))
    }
}

/// The accounts that a posting names, or all sixteen.
fn accounts(&[_, kind, a, b, _]: &[u64; 5]) -> Set {
    if [kind, a, b] == [3, 255, 255] {
        return (0..16).collect();
    }
    Set::from([a, b])
}

fn mask(set: &Set) -> model::Set {
    let mut mask = model::Set::EMPTY;
    for &m in set {
        mask.words[m as usize / 64] |= 1 << (m % 64);
    }
    mask
}
