// Holds: run files that are turned into text and back come out as the same bytes, and texts of every shape.
// Rests on: text; the model's generators.

use model::malform::{malformed_file, refused_file, sound_file, FLAWS};
use model::prng::Prng;
use model::runfile::{encode, EVENT, HEADER};
use model::{decode, Call, Run, MAX_EVENTS};
use text::{assemble, disassemble};

fn comes_back(file: &[u8]) {
    let text = disassemble(file).expect("the file is well formed");
    assert_eq!(assemble(&text).as_deref(), Ok(file), "{text}");
}

#[test]
fn generated_files() {
    let mut rng = Prng::new(51);
    for round in 0..400 {
        let events = if round % 100 == 0 { MAX_EVENTS } else { 60 };
        comes_back(&sound_file(&mut rng, events));
        comes_back(&refused_file(&mut rng, events));
    }
}

/// A well-formed event with any values in its fields.
fn any_event(rng: &mut Prng) -> [u8; EVENT] {
    let mut event = [0; EVENT];
    event[0] = rng.within(1, 5) as u8;
    let used = [0, 9, 5, 2, 2, 2][usize::from(event[0])];
    for byte in &mut event[1..used] {
        let any = rng.word() as u8;
        *byte = rng.pick(&[any, any, 0, 3, 4, 255]);
    }
    let any = rng.word() as u8;
    event[9] = match event[0] {
        3 | 5 => 255,
        _ => rng.pick(&[255, 0, 254, any]),
    };
    event
}

#[test]
fn any_values_of_the_fields() {
    let mut rng = Prng::new(52);
    for _ in 0..2000 {
        let head: [u8; 4] = std::array::from_fn(|_| rng.word() as u8);
        let mut file = [b"RUN\0\x01".as_slice(), &head].concat();
        for _ in 0..rng.below(30) {
            file.extend_from_slice(&any_event(&mut rng));
        }
        assert!(decode(&file).is_ok());
        comes_back(&file);
    }
}

#[test]
fn malformed_files_have_no_text() {
    let mut rng = Prng::new(53);
    for round in 0..320 {
        let flaw = FLAWS[round % FLAWS.len()];
        let file = malformed_file(&mut rng, 20, flaw);
        assert!(disassemble(&file).is_err(), "{flaw:?}");
    }
}

#[test]
fn what_is_wrong_with_a_file() {
    let says = |bytes: &[u8], cause: &str| {
        let found = disassemble(bytes).unwrap_err();
        assert!(found.contains(cause), "{found}");
    };
    let head = b"RUN\0\x01\x03\x01\x5B\x6C";
    let order = [3, 0, 0, 0, 0, 0, 0, 0, 0, 255];
    let none = [6, 0, 0, 0, 0, 0, 0, 0, 0, 255];
    says(&head[..8], "8 bytes");
    says(b"RUM\0\x01\x03\x01\x5B\x6C", "mark");
    says(b"RUN\0\x02\x03\x01\x5B\x6C", "version 1");
    says(&[head.as_slice(), &[3; 7]].concat(), "7 bytes of 10");
    says(
        &[head.as_slice(), &order, &none, &order].concat(),
        "event 2, at byte 19",
    );
    let many = order.repeat(MAX_EVENTS + 1);
    says(&[head.as_slice(), &many].concat(), "4097 events");
}

/// Names and numbers, base ten and sixteen, comments, empty lines and white space.
#[test]
fn ways_to_write_the_same() {
    let plain = "sites 3\ncrashes 1\nmatrix 0x5B6C\noffer 0 TRADE 1 2 1000 cut 2\n\
                 receive DELIVER 0 from 0 to 1\norder 5\nread 1 cut 0\ncrash 2\n";
    let other = "# a comment\r\n\r\n  sites 0x3 # three\n\tcrashes 001\nmatrix 23404\n\n\
                 offer 0x0 0 1 0x2 0x3e8   cut 0x02#\n#\nreceive 3 0 from 0 to 1\n\
                 order 5\nread 1 cut 0\n\n# the end\ncrash 2";
    let file = assemble(plain).unwrap();
    assert_eq!(assemble(other).unwrap(), file);
    assert_eq!(disassemble(&file).unwrap(), plain);
    let calls = decode(&file).unwrap().calls;
    assert_eq!(
        calls[3],
        Call::Read {
            site: 1,
            cut: Some(0)
        }
    );
}

#[test]
fn no_events() {
    let run = Run {
        n: 7,
        f: 3,
        matrix: 0xFFFF,
        calls: vec![],
    };
    let text = "sites 7\ncrashes 3\nmatrix 0xFFFF\n";
    assert_eq!(assemble(text).unwrap(), encode(&run).unwrap());
    assert_eq!(assemble(text).unwrap().len(), HEADER);
}
