//! The library through its Rust interface: the swap case, refusals, the texts' own answers, names that are taken, places, the enquiries, steps and
//! their runs, evidence files, its digest, and many checks by one process.

use sverdhyll::{
    Answer, Library, Outcome, Position, Stepped, Text, Written, AREA_LENGTH, EVIDENCE_LENGTH, STEP,
    STEPS_LENGTH, UNUSED,
};

/// The script of the shipped example.
const SCRIPT: &[u8] = include_bytes!("../../../examples/swap.sy");
/// The response of the shipped example.
const RESPONSE: &[u8] = include_bytes!("../../../examples/swap.response");
/// One byte more than a script may have.
const TOO_LONG: usize = 65_537;

/// An answer without units and without a position.
fn answer(number: u8, text: u8, place: u64, second: u64) -> Answer {
    Answer {
        number,
        text,
        place,
        second,
        ..Answer::default()
    }
}

/// The answer of one check, with the first entries of the area.
fn checked(library: &mut Library, script: &[u8], budget: u64) -> (Answer, [u16; 5]) {
    let mut area = vec![7; AREA_LENGTH];
    let answer = library.check(script, RESPONSE, &[], budget, &mut area);
    let first = [area[0], area[1], area[2], area[3], area[4]];
    (answer.expect("an answer"), first)
}

/// The own answer of two texts.
fn read(library: &mut Library, script: &[u8], response: &[u8]) -> Answer {
    library.read(script, response).expect("an answer")
}

#[test]
fn swap_case() {
    let mut library = Library::open().expect("a library");
    let shown = [7, 15, 3, 8, UNUSED];
    let accepted = Answer {
        units: 24,
        ..answer(0, 3, 0, 1)
    };
    assert_eq!(checked(&mut library, SCRIPT, 24), (accepted, shown));
    let ended = Answer {
        units: 16,
        ..answer(15, 2, 0, 2)
    };
    assert_eq!(checked(&mut library, SCRIPT, 23), (ended, shown));
}

#[test]
fn the_least_derivation() {
    let mut library = Library::open().expect("a library");
    let script = b"(set-logic BV)(synth-fun f () Bool ((A Bool)(B Bool)) ((A Bool (B (not B) (not A))) (B Bool (A true true))))(check-synth)";
    let response = b"((define-fun f () Bool (not true)))";
    let mut area = vec![7; AREA_LENGTH];
    let found = library.check(script, response, &[], 0, &mut area);
    assert_eq!(found.expect("an answer"), answer(0, 3, 0, 1));
    assert_eq!(area[..3], [1, 4, UNUSED]);
}

#[test]
fn weights() {
    let mut library = Library::open().expect("a library");
    let script = b"(set-logic BV)(set-feature :weights true)(synth-fun f () Bool ((A Bool)(B Bool)) ((A Bool ((! true :weight 5) B)) (B Bool ((! true :weight 1)))))
        (synth-fun g () Bool ((A Bool)) ((A Bool ((! true :weight 7)))))(check-synth)";
    let response = b"((define-fun f () Bool true)(define-fun g () Bool true))";
    let mut area = vec![7; AREA_LENGTH];
    let found = library.check(script, response, &[], 0, &mut area);
    let expected = Answer {
        weights: [1, 7, 0, 0, 0, 0, 0, 0],
        ..answer(0, 3, 0, 1)
    };
    assert_eq!(found.expect("an answer"), expected);
    assert_eq!(area[..3], [1, 2, UNUSED]);
    let refused = library.check(script, response, &[1], 0, &mut area);
    assert_eq!(refused.expect("an answer"), answer(16, 2, 1, 0));
}

#[test]
fn sizes() {
    let mut library = Library::open().expect("a library");
    let long = vec![b' '; TOO_LONG];
    let (refused, shown) = checked(&mut library, &long, 0);
    let expected = answer(1, 0, TOO_LONG as u64, 0);
    assert_eq!((refused, shown), (expected, [UNUSED; 5]));
    let mut area = [7; 3];
    let refused = library.check(b"", b"", &[1, 2], u64::MAX, &mut area);
    assert_eq!(refused.expect("an answer"), answer(1, 3, 3, 0));
    assert_eq!(area, [7; 3]);
    let refused = library.check(SCRIPT, RESPONSE, &[1, 2], 0, &mut vec![0; AREA_LENGTH]);
    assert_eq!(refused.expect("an answer"), answer(16, 2, 2, 0));
}

#[test]
fn texts_alone() {
    let mut library = Library::open().expect("a library");
    let (long, length) = (vec![b' '; TOO_LONG], TOO_LONG as u64);
    let bad_word = Answer {
        end: 3,
        line: 2,
        column: 1,
        ..answer(2, 1, 1, 0)
    };
    for (script, response, expected) in [
        (SCRIPT, RESPONSE, answer(0, 3, 0, 0)),
        (SCRIPT, b"fail", answer(10, 1, 0, 0)),
        (SCRIPT, b"\n00", bad_word),
        (
            b"\n00",
            b"",
            Answer {
                text: 0,
                ..bad_word
            },
        ),
        (b"", &long, answer(1, 1, length, 0)),
        (&long, &long, answer(1, 0, length, 0)),
    ] {
        assert_eq!(read(&mut library, script, response), expected);
    }
}

#[test]
fn a_name_that_is_taken() {
    let mut library = Library::open().expect("a library");
    let script = b"(set-logic BV)\n(declare-var xy Bool)\n(declare-var xy Bool)";
    let taken = read(&mut library, script, RESPONSE);
    let expected = Answer {
        end: 52,
        line: 3,
        column: 14,
        ..answer(7, 0, 50, 28)
    };
    assert_eq!(taken, expected);
    let outcome = Outcome::Name {
        text: Text::Script,
        at: 50,
        position: taken.position().expect("a position"),
        declared: Some(28),
    };
    assert_eq!(taken.outcome(), outcome);
}

#[test]
fn texts_alone_and_checked() {
    let mut library = Library::open().expect("a library");
    for end in 0..=SCRIPT.len() {
        let own = read(&mut library, &SCRIPT[..end], RESPONSE);
        let (whole, _) = checked(&mut library, &SCRIPT[..end], 24);
        let expected = match own.number {
            0 => Answer {
                second: 1,
                units: 24,
                ..own
            },
            _ => own,
        };
        assert_eq!(whole, expected, "of {end} bytes");
    }
}

#[test]
fn enquiry() {
    let mut library = Library::open().expect("a library");
    for (at, length) in [(0, 0), (2, 0), (3, 2), (4, 0), (5, 1), (6, 0), (900, 0)] {
        let found = library.word(b"; \nab( ", at);
        assert_eq!(found.expect("an answer"), length, "at {at}");
    }
}

#[test]
fn positions() {
    let mut library = Library::open().expect("a library");
    let text = b"\tab\r(\n\xe9c ";
    for (place, end, line, column) in [
        (0, 0, 1, 1),
        (1, 3, 1, 2),
        (2, 2, 1, 3),
        (4, 5, 1, 5),
        (5, 5, 1, 6),
        (6, 8, 2, 1),
        (8, 8, 2, 3),
        (9, 9, 2, 4),
        (900, 900, 2, 4),
    ] {
        let found = library.position(text, place).expect("an answer");
        let expected = Position { end, line, column };
        assert_eq!(found, expected, "at {place}");
    }
    for (text, line, column) in [(&b""[..], 1, 1), (b"a", 1, 2), (b"a\n", 2, 1)] {
        let found = library.position(text, text.len()).expect("an answer");
        let end = text.len() as u64;
        assert_eq!(found, Position { end, line, column });
    }
}

#[test]
fn answers_with_a_position() {
    let mut library = Library::open().expect("a library");
    let (refused, _) = checked(&mut library, b"(set-logic BV)\n (foo bar)", 0);
    let position = Position {
        end: 17,
        line: 2,
        column: 2,
    };
    let expected = Answer {
        end: 17,
        line: 2,
        column: 2,
        ..answer(5, 0, 16, 0)
    };
    assert_eq!((refused, refused.position()), (expected, Some(position)));
    let said = "script, line 2, column 2: of no shape that is known";
    assert_eq!(refused.to_string(), said);
    let (accepted, _) = checked(&mut library, SCRIPT, 24);
    assert_eq!(accepted.position(), None);
}

#[test]
fn the_digest_is_that_of_the_library() {
    let library = Library::open().expect("a library");
    let path = concat!(
        env!("CARGO_MANIFEST_DIR"),
        "/../../target/staticlib/libchecker.a"
    );
    let bytes = std::fs::read(path).expect("a static library");
    assert_eq!(library.digest(), sverdhyll::digest::sha256(&bytes));
}

#[test]
fn many_checks_by_one_process() {
    let mut library = Library::open().expect("a library");
    for budget in 0..200 {
        let (answer, shown) = checked(&mut library, SCRIPT, budget);
        assert_eq!(shown, [7, 15, 3, 8, UNUSED]);
        assert_eq!(answer.number, if budget < 24 { 15 } else { 0 });
        assert_eq!(answer.units, 8 * (budget / 8).min(3));
    }
}

/// The steps of the shipped example's body, with what stands behind them.
fn stepped(
    library: &mut Library,
    budget: u64,
    function: u64,
    length: usize,
) -> (Stepped, Vec<u64>) {
    let mut area = vec![7; length];
    let stepped = library.steps([SCRIPT, RESPONSE], &[], budget, function, &mut area);
    (stepped.expect("an answer"), area)
}

#[test]
fn steps_of_a_body() {
    let mut library = Library::open().expect("a library");
    let (stepped, area) = stepped(&mut library, 24, 0, STEPS_LENGTH);
    let accepted = Answer {
        units: 24,
        ..answer(0, 3, 0, 1)
    };
    assert_eq!((stepped.answer, stepped.count), (accepted, 4));
    let (list, rest) = area.split_at(STEP * stepped.count);
    let expected = [1, 0, 0, 0, 3, 22, 15, 0, 2, 0, 16, 0, 3, 21, 2, 0];
    assert_eq!(list, expected);
    assert!(rest.iter().all(|&number| number == 7));
    let ran = library.run(&[32], &[0xdead_beef], list).expect("a run");
    assert_eq!((ran.answer, ran.value), (answer(0, 3, 0, 0), 0xbeef_0000));
    assert_eq!(ran.sort, 32);
}

#[test]
fn bodies_without_steps() {
    let mut library = Library::open().expect("a library");
    let ended = Answer {
        units: 16,
        ..answer(15, 2, 0, 2)
    };
    for (budget, function, length, expected) in [
        (23, 0, STEPS_LENGTH, ended),
        (24, 1, STEPS_LENGTH, answer(18, 3, 1, 0)),
        (24, u64::MAX, STEPS_LENGTH, answer(18, 3, u64::MAX, 0)),
        (23, 1, 3, answer(17, 3, 3, 0)),
        (23, 1, STEPS_LENGTH + 1, answer(17, 3, 1_025, 0)),
    ] {
        let (stepped, area) = stepped(&mut library, budget, function, length);
        assert_eq!((stepped.answer, stepped.count), (expected, 0));
        assert!(area.iter().all(|&number| number == 7));
    }
}

#[test]
fn runs_that_are_refused() {
    let mut library = Library::open().expect("a library");
    for (sorts, arguments, steps, number, place) in [
        (&[8][..], &[1, 2][..], &[][..], 20, 2),
        (&[8, 65], &[1, 2], &[9], 20, 1),
        (&[], &[], &[2, 1, 8, 0, 3, 13, 2, 0], 19, 1),
        (&[], &[], &[2, 1, 8, 0, 2], 19, 1),
        (&[], &[], &[], 19, 0),
    ] {
        let ran = library.run(sorts, arguments, steps).expect("a run");
        assert_eq!(ran.answer, answer(number, 3, place, 0));
        assert_eq!((ran.value, ran.sort), (0, 0));
    }
    let outcome = library
        .run(&[0], &[2], &[])
        .expect("a run")
        .answer
        .outcome();
    assert_eq!(outcome, Outcome::BadArgument { at: 0 });
}

/// The evidence file of a response to the shipped example, written to an area of so many bytes, with the area.
fn evidence(library: &mut Library, response: &[u8], length: usize) -> (Written, Vec<u8>) {
    let mut area = vec![7; length];
    let written = library.write_evidence(SCRIPT, response, &mut area);
    (written.expect("an answer"), area)
}

/// What is answered to an evidence file.
fn audited(library: &mut Library, file: &[u8]) -> Answer {
    library.check_evidence(file).expect("an answer")
}

/// A file with the sums of its blocks put right.
fn with_sums(mut file: Vec<u8>) -> Vec<u8> {
    for block in file.chunks_mut(512) {
        let products = (1..=510)
            .zip(&*block)
            .map(|(at, &byte)| at * u32::from(byte));
        let sum = products.sum::<u32>() % 65_521;
        block[510..].copy_from_slice(&(sum as u16).to_le_bytes());
    }
    file
}

#[test]
fn an_evidence_file() {
    let mut library = Library::open().expect("a library");
    let (written, area) = evidence(&mut library, RESPONSE, EVIDENCE_LENGTH);
    let rules_at = 24 + SCRIPT.len() + RESPONSE.len();
    let length = (rules_at + 8).div_ceil(510) * 512;
    let accepted = answer(0, 3, 0, 0);
    assert_eq!((written.answer, written.length), (accepted, length));
    let (file, rest) = area.split_at(length);
    assert!(rest.iter().all(|&byte| byte == 7));
    let payload: Vec<u8> = file
        .chunks(512)
        .flat_map(|block| &block[..510])
        .copied()
        .collect();
    assert_eq!(payload[..4], (SCRIPT.len() as u32).to_le_bytes());
    assert_eq!(payload[4..8], (RESPONSE.len() as u32).to_le_bytes());
    assert_eq!(
        payload[8..24],
        [4, 0, 0, 0, 0, 0, 0, 0, 0, 0, 0, 0, 0, 0, 0, 0]
    );
    assert_eq!(payload[24..rules_at], [SCRIPT, RESPONSE].concat());
    assert_eq!(payload[rules_at..rules_at + 8], [7, 0, 15, 0, 3, 0, 8, 0]);
    assert!(payload[rules_at + 8..].iter().all(|&byte| byte == 0));
    assert_eq!(with_sums(file.to_vec()), file);
    assert_eq!(audited(&mut library, file), accepted);
}

#[test]
fn evidence_that_is_refused() {
    let mut library = Library::open().expect("a library");
    let (written, area) = evidence(&mut library, RESPONSE, EVIDENCE_LENGTH);
    let file = &area[..written.length];
    for at in [0, 511, 512, file.len() - 1] {
        let mut changed = file.to_vec();
        changed[at] ^= 64;
        let block = at as u64 / 512;
        assert_eq!(audited(&mut library, &changed), answer(21, 3, block, 0));
    }
    let last = file.len() as u64 / 512;
    let cut = audited(&mut library, &file[..file.len() - 1]);
    assert_eq!(cut, answer(21, 3, last - 1, 0));
    let spare = audited(&mut library, &[file, &[0; 512]].concat());
    assert_eq!(spare.outcome(), Outcome::WrongBlock { block: last });
    assert_eq!(audited(&mut library, &[]), answer(21, 3, 0, 0));
    let mut lists = file.to_vec();
    lists[8] = 3;
    let lists = with_sums(lists);
    assert_eq!(audited(&mut library, &lists), answer(21, 3, last - 1, 0));
    let mut absent = file.to_vec();
    absent[8..12].copy_from_slice(&[3, 0, 1, 0]);
    let unfollowed = audited(&mut library, &with_sums(absent));
    assert_eq!(unfollowed.outcome(), Outcome::NotFollowed { function: 0 });
    let mut word = file.to_vec();
    word[24] = b')';
    let closed = Answer {
        end: 1,
        line: 1,
        column: 1,
        ..answer(3, 0, 0, 0)
    };
    assert_eq!(audited(&mut library, &with_sums(word)), closed);
}

#[test]
fn evidence_that_is_not_written() {
    let mut library = Library::open().expect("a library");
    let (written, _) = evidence(&mut library, RESPONSE, EVIDENCE_LENGTH);
    let short = written.length - 1;
    for (response, length, expected) in [
        (RESPONSE, short, answer(17, 3, short as u64, 0)),
        (RESPONSE, 0, answer(17, 3, 0, 0)),
        (b"fail", 0, answer(10, 1, 0, 0)),
        (b"infeasible", EVIDENCE_LENGTH, answer(11, 1, 0, 0)),
    ] {
        let (written, area) = evidence(&mut library, response, length);
        assert_eq!((written.answer, written.length), (expected, 0));
        assert!(area.iter().all(|&byte| byte == 7));
    }
}
