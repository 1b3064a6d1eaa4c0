//! Request E6: the end of the word at an answer's place, and the place's line and column.

use crate::{script_with, TRUE};
use simple::places::{end, line_and_column, position};
use simple::words::cut;
use simple::{check, Answer, Position, AREA_LENGTH};

/// Answer number, place, end, line and column.
type Carried = (u8, u64, u64, u64, u64);

/// What an answer carries of its place.
fn of(answer: &Answer) -> Carried {
    let Answer {
        end, line, column, ..
    } = *answer;
    (answer.number, answer.place, end, line, column)
}

/// The answer for texts of any bytes, all its numbers being held to a walk.
fn answer(script: &[u8], response: &[u8], points: &[u64], budget: u64) -> Answer {
    let mut area = vec![0; AREA_LENGTH];
    let answer = check(script, response, points, budget, &mut area);
    assert_located(&answer, script, response);
    answer
}

/// What the answer for a script carries.
fn in_script(script: &[u8]) -> Carried {
    of(&answer(script, TRUE.as_bytes(), &[], 0))
}

/// What the answer for a response to a sound script carries.
fn in_response(response: &[u8]) -> Carried {
    of(&answer(script_with("").as_bytes(), response, &[], 0))
}

/// End, line and column of a place where a word starts or the text ends, found by a walk over the bytes.
fn walked(text: &[u8], place: usize) -> [u64; 3] {
    let (mut line, mut column) = (1, 1);
    for byte in &text[..place] {
        (line, column) = match byte {
            b'\n' => (line + 1, 1),
            _ => (line, column + 1),
        };
    }
    let bracket = text.get(place).is_some_and(|byte| b"()".contains(byte));
    let mut end = place + usize::from(bracket);
    while !bracket && end < text.len() && !b"\t\n\r ();".contains(&text[end]) {
        end += 1;
    }
    assert!(end > place || place == text.len(), "no word at {place}");
    [end as u64, line, column]
}

/// Holds the new numbers of an answer to the walk where it carries them, and to 0 where not.
pub fn assert_located(answer: &Answer, script: &[u8], response: &[u8]) {
    let expected = match (answer.number, answer.text) {
        (0 | 1 | 10 | 11 | 14..=16, _) => [0; 3],
        (_, 0) => walked(script, answer.place as usize),
        _ => walked(response, answer.place as usize),
    };
    let found = [answer.end, answer.line, answer.column];
    assert_eq!(found, expected, "{answer:?}");
}

#[test]
fn a_place_at_the_texts_end_is_behind_its_last_byte() {
    assert_eq!(in_script(b"(set-logic BV)\n"), (5, 15, 15, 2, 1));
    assert_eq!(in_script(b"(set-logic BV)"), (5, 14, 14, 1, 15));
    assert_eq!(in_script(b""), (5, 0, 0, 1, 1));
    assert_eq!(in_script(b"("), (3, 1, 1, 1, 2));
    assert_eq!(in_script(b"(\n\n;a"), (3, 5, 5, 3, 3));
    assert_eq!(in_response(b""), (5, 0, 0, 1, 1));
    assert_eq!(in_response(b"\n"), (5, 1, 1, 2, 1));
    assert_eq!(in_response(b"(\n ("), (3, 4, 4, 2, 3));
}

#[test]
fn a_line_ends_at_byte_10_only() {
    assert_eq!(in_script(b"(set-logic BV)\r\r00"), (2, 16, 18, 1, 17));
    assert_eq!(in_script(b"(set-logic BV)\r\n00"), (2, 16, 18, 2, 1));
    assert_eq!(in_script(b"(set-logic BV)\n\r00"), (2, 16, 18, 2, 2));
    assert_eq!(in_script(b"(set-logic BV)\n\n00"), (2, 16, 18, 3, 1));
    assert_eq!(in_script(b";a\r00"), (2, 3, 5, 1, 4));
    assert_eq!(in_script(b";a\n00"), (2, 3, 5, 2, 1));
    assert_eq!(in_script(b"\x0b00"), (2, 0, 3, 1, 1));
    assert_eq!(
        in_script(b";\x0b\x0c\xc2\x85\xe2\x80\xa8\r00"),
        (2, 9, 11, 1, 10)
    );
}

#[test]
fn each_byte_is_one_column() {
    assert_eq!(in_script(b";\xc3\xa9\r00"), (2, 4, 6, 1, 5));
    assert_eq!(in_script(b"\t;\xff\r00"), (2, 4, 6, 1, 5));
    assert_eq!(in_script(b"\n\t\t00"), (2, 3, 5, 2, 3));
    assert_eq!(in_script(b"\xc3\xa9\xff 00"), (2, 0, 3, 1, 1));
}

#[test]
fn the_word_at_a_command_is_its_bracket() {
    assert_eq!(in_script(b"(set-logic BV)(abc)"), (5, 14, 15, 1, 15));
    assert_eq!(in_script(b"(set-logic BV)\n (abc)"), (5, 16, 17, 2, 2));
    assert_eq!(in_response(b"(\n(abc))"), (5, 2, 3, 2, 1));
    assert_eq!(in_script(b")"), (3, 0, 1, 1, 1));
}

#[test]
fn the_end_is_that_of_the_whole_refused_word() {
    assert_eq!(in_script(b"00"), (2, 0, 2, 1, 1));
    assert_eq!(in_script(&[b'a'; 70]), (4, 0, 70, 1, 1));
    assert_eq!(in_script(&[b'1'; 70]), (4, 0, 70, 1, 1));
    assert_eq!(in_script(b"\"a b\""), (6, 0, 2, 1, 1));
    assert_eq!(in_script(b"|a;b"), (6, 0, 2, 1, 1));
    let nested = [&[b'('; 65][..], &[b')'; 65]].concat();
    assert_eq!(in_script(&nested), (4, 64, 65, 1, 65));
}

#[test]
fn answers_2_to_9_carry_the_script() {
    let behind = b"(set-logic BV)(synth-fun f () Bool ((A Bool)) ((A Bool (true (not A)))))\n";
    let carried = |commands: &str| in_script(script_with(commands).as_bytes());
    let from = behind.len() as u64;
    let table = [
        ("(constraint  '')", 2, 13, 15),
        ("(constraint) )", 3, 13, 14),
        ("(constraint 1234567890)", 4, 12, 22),
        ("(constraint)", 5, 0, 1),
        ("(constraint (let ((x true)) x))", 6, 0, 1),
        ("(constraint abc)", 7, 12, 15),
        ("(constraint #x0)", 8, 12, 15),
        (
            "(synth-fun g () Bool ((A Bool)) ((B Bool (true))))",
            9,
            34,
            35,
        ),
    ];
    for (commands, number, place, end) in table {
        let expected = (number, from + place, from + end, 2, place + 1);
        assert_eq!(carried(commands), expected, "{commands}");
    }
}

#[test]
fn answers_2_to_8_12_and_13_carry_the_response() {
    let table: [(&str, Carried); 10] = [
        ("\n((define-fun f () Bool 00))", (2, 24, 26, 2, 24)),
        ("\n((define-fun f () Bool )))", (3, 26, 27, 2, 26)),
        (
            "\n((define-fun f () Bool #x00000000000000000))",
            (4, 24, 43, 2, 24),
        ),
        ("\n((define-fun f () Bool))", (5, 2, 3, 2, 2)),
        ("\n((define-fun f () Bool (! true)))", (6, 2, 3, 2, 2)),
        ("\n((define-fun f () Bool abc))", (7, 24, 27, 2, 24)),
        ("\n((define-fun f () Bool #x0))", (8, 24, 27, 2, 24)),
        ("\n((define-fun ff () Bool true))", (12, 14, 16, 2, 14)),
        ("\n(\n)", (12, 3, 4, 3, 1)),
        ("\n((define-fun f () Bool false))", (13, 24, 29, 2, 24)),
    ];
    for (response, expected) in table {
        assert_eq!(in_response(response.as_bytes()), expected, "{response}");
    }
    let response = b"((define-fun f () Bool  (and true true)))";
    assert_eq!(in_response(response), (13, 24, 25, 1, 25));
}

#[test]
fn the_other_answers_carry_0() {
    let script = script_with("(declare-var p Bool)(constraint p)");
    let carried = |response: &[u8], points: &[u64], budget| {
        of(&answer(script.as_bytes(), response, points, budget))
    };
    let response = TRUE.as_bytes();
    assert_eq!(carried(response, &[1], 9), (0, 0, 0, 0, 0));
    assert_eq!(carried(&[b'\n'; 8_193], &[], 0), (1, 8_193, 0, 0, 0));
    assert_eq!(carried(response, &[1; 1_025], 0), (1, 1_025, 0, 0, 0));
    assert_eq!(in_script(&[b'\n'; 70_000]), (1, 70_000, 0, 0, 0));
    let mut short = [7; 9];
    let refused = check(script.as_bytes(), response, &[], 0, &mut short);
    assert_eq!(of(&refused), (1, 9, 0, 0, 0));
    assert_eq!(carried(b"fail", &[], 0), (10, 0, 0, 0, 0));
    assert_eq!(carried(b"\ninfeasible", &[], 0), (11, 0, 0, 0, 0));
    assert_eq!(carried(response, &[1, 0], 9), (14, 1, 0, 0, 0));
    assert_eq!(carried(response, &[1, 0], 1), (15, 1, 0, 0, 0));
    assert_eq!(carried(response, &[1, 2], 9), (16, 1, 0, 0, 0));
}

#[test]
fn every_place_of_a_text_has_a_position() {
    let text = b"(ab\n\r;c\xff\n)";
    let ends: Vec<usize> = (0..text.len() + 3).map(|at| end(text, at)).collect();
    assert_eq!(ends, [1, 3, 2, 3, 4, 5, 6, 7, 8, 10, 10, 11, 12]);
    let lines: Vec<(usize, usize)> = (0..text.len() + 3)
        .map(|at| line_and_column(text, at))
        .collect();
    let first = [(1, 1), (1, 2), (1, 3), (1, 4)];
    let second = [(2, 1), (2, 2), (2, 3), (2, 4), (2, 5)];
    let third = [(3, 1), (3, 2), (3, 2), (3, 2)];
    assert_eq!(lines, [&first[..], &second, &third].concat());
    let far = Position {
        end: u64::MAX,
        line: 3,
        column: 2,
    };
    assert_eq!(position(text, usize::MAX), far);
}

#[test]
fn the_reader_gives_each_word_with_its_end() {
    let text = b"(ab\n;c d\r00)";
    assert_eq!(cut(text), [0..1, 1..3, 9..11, 11..12]);
    for word in cut(text) {
        assert_eq!(end(text, word.start), word.end);
    }
}
