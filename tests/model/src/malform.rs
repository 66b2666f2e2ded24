// Holds: random run files as bytes: sound ones, ones with a refused start, and malformed ones.
// Rests on: gen, prng, runfile.

use crate::gen::{legal_start, mix_for, random_mix, random_run, refused_start};
use crate::prng::Prng;
use crate::runfile::{encode, encode_event, Run, EVENT, HEADER, MAX_EVENTS};

#[derive(Clone, Copy, Debug, PartialEq, Eq)]
pub enum Flaw {
    Mark,
    Version,
    Short,
    Length,
    Code,
    Unused,
    Cut,
    TooMany,
}

pub const FLAWS: [Flaw; 8] = [
    Flaw::Mark,
    Flaw::Version,
    Flaw::Short,
    Flaw::Length,
    Flaw::Code,
    Flaw::Unused,
    Flaw::Cut,
    Flaw::TooMany,
];

/// A well-formed file with an accepted start.
pub fn sound_file(rng: &mut Prng, events: usize) -> Vec<u8> {
    let start = legal_start(rng);
    let mix = mix_for(rng, events);
    let run = random_run(rng, start, events, &mix);
    encode(&run).expect("a mix that is not wide fits the file")
}

/// A well-formed file with a refused start; its events are those of some other start.
pub fn refused_file(rng: &mut Prng, events: usize) -> Vec<u8> {
    let mut file = sound_file(rng, events);
    let (n, f, matrix) = refused_start(rng);
    file[5..7].copy_from_slice(&[n, f]);
    file[7..HEADER].copy_from_slice(&matrix.to_be_bytes());
    file
}

fn other(rng: &mut Prng, byte: u8) -> u8 {
    byte ^ rng.within(1, 255) as u8
}

/// An event that has the flaw, in place of some event of the file, or after its only header.
fn place_event(rng: &mut Prng, file: &mut Vec<u8>, event: [u8; EVENT]) {
    let count = (file.len() - HEADER) / EVENT;
    if count == 0 {
        file.extend_from_slice(&event);
        return;
    }
    let at = HEADER + EVENT * rng.below(count as u64) as usize;
    file[at..at + EVENT].copy_from_slice(&event);
}

/// An event with one of its unused bytes not 0.
fn unused_event(rng: &mut Prng) -> [u8; EVENT] {
    let mut event = [0; EVENT];
    event[0] = rng.within(2, 5) as u8;
    event[9] = 255;
    let first = if event[0] == 2 { 5 } else { 2 };
    event[rng.within(first, 8) as usize] = rng.within(1, 255) as u8;
    event
}

fn spoil_event(rng: &mut Prng, flaw: Flaw) -> [u8; EVENT] {
    let mut event = [0; EVENT];
    event[9] = 255;
    match flaw {
        Flaw::Code => event[0] = rng.pick(&[0, 6, 7, 128, 255]),
        Flaw::Unused => return unused_event(rng),
        _ => {
            event[0] = rng.pick(&[3, 5]);
            event[9] = rng.pick(&[0, 1, 254]);
        }
    }
    event
}

/// Events of a sound run, repeated until there are too many.
fn lengthen(rng: &mut Prng, file: &mut Vec<u8>) {
    let start = legal_start(rng);
    let mix = random_mix(rng);
    let run: Run = random_run(rng, start, 1, &mix);
    let event = encode_event(&run.calls[0]).expect("a mix that is not wide fits the file");
    let wanted = HEADER + EVENT * (MAX_EVENTS + rng.within(1, 3) as usize);
    while file.len() < wanted {
        file.extend_from_slice(&event);
    }
}

/// A file with one flaw, and a start that may be refused besides.
pub fn malformed_file(rng: &mut Prng, events: usize, flaw: Flaw) -> Vec<u8> {
    let mut file = if rng.percent(30) {
        refused_file(rng, events)
    } else {
        sound_file(rng, events)
    };
    match flaw {
        Flaw::Mark => {
            let at = rng.below(3) as usize;
            file[at] = other(rng, file[at]);
        }
        Flaw::Version => {
            let at = rng.within(3, 4) as usize;
            file[at] = other(rng, file[at]);
        }
        Flaw::Short => file.truncate(rng.below(HEADER as u64) as usize),
        Flaw::Length => {
            let more = rng.within(1, EVENT as u64 - 1) as usize;
            file.resize(file.len() + more, 0);
        }
        Flaw::TooMany => lengthen(rng, &mut file),
        _ => {
            let event = spoil_event(rng, flaw);
            place_event(rng, &mut file, event);
        }
    }
    file
}

/// A file of any sort; most are sound, and one in a hundred is as long as a file may be.
pub fn any_file(rng: &mut Prng) -> Vec<u8> {
    let events = match rng.below(100) {
        0 => MAX_EVENTS,
        1..=20 => rng.below(1200) as usize,
        _ => rng.below(150) as usize,
    };
    match rng.below(20) {
        0 => refused_file(rng, events),
        1..=3 => {
            let flaw = rng.pick(&FLAWS);
            malformed_file(rng, events, flaw)
        }
        _ => sound_file(rng, events),
    }
}
