//! "The texts' own answers, 1 to 12, else 0".

use crate::{script_with, TRUE};
use simple::{check, read, Answer, AREA_LENGTH, MOST_RESPONSE_BYTES, MOST_SCRIPT_BYTES};

/// The own answer of two texts: its number, text and place, and the end, the line and the column there.
type Own = (u8, u8, u64, [u64; 3]);

/// What two texts that pass answer.
const PASSES: Own = (0, 3, 0, [0; 3]);

/// An answer without a second number and units.
fn answer((number, text, place, [end, line, column]): Own) -> Answer {
    Answer {
        number,
        text,
        place,
        end,
        line,
        column,
        ..Answer::default()
    }
}

/// Holds two texts to their own answer.
fn own(script: &str, response: &str, expected: Own) {
    let found = read(script.as_bytes(), response.as_bytes());
    assert_eq!(found, answer(expected), "{script} {response}");
}

/// Holds the own answer of two texts to the checker's: the same where that refuses a text, 0 where it speaks of what comes after the texts. Where it refuses
/// the points or the area, it is asked again with none and with one of its size.
pub fn assert_read(checked: &Answer, script: &[u8], response: &[u8]) {
    let checked = match (checked.number, checked.text) {
        (1, 2 | 3) => check(script, response, &[], 0, &mut vec![0; AREA_LENGTH]),
        _ => *checked,
    };
    let expected = match checked.number {
        1..=12 => checked,
        _ => answer(PASSES),
    };
    assert_eq!(read(script, response), expected, "{checked:?}");
}

#[test]
fn texts_that_pass_are_0_about_none() {
    let script = script_with("(declare-var p Bool)(constraint p)");
    own(&script, TRUE, PASSES);
    own(&script_with("(constraint false)"), TRUE, PASSES);
    own(&script, "((define-fun f () Bool false))", PASSES);
}

#[test]
fn a_text_is_refused_at_its_place() {
    let script = script_with("");
    own("(set-logic BV)\n00", TRUE, (2, 0, 15, [17, 2, 1]));
    own("(set-logic BV)", "fail", (5, 0, 14, [14, 1, 15]));
    own(&script, "\n 00", (2, 1, 2, [4, 2, 2]));
    own(&script, "\nfail", (10, 1, 0, [0; 3]));
    own(&script, "infeasible", (11, 1, 0, [0; 3]));
    own(&script, "(\n)", (12, 1, 2, [3, 2, 1]));
    own("", "", (5, 0, 0, [0, 1, 1]));
}

#[test]
fn a_text_too_long_is_refused_first() {
    let (script, response) = (MOST_SCRIPT_BYTES as u64, MOST_RESPONSE_BYTES as u64);
    let long_script = " ".repeat(MOST_SCRIPT_BYTES + 1);
    let long_response = " ".repeat(MOST_RESPONSE_BYTES + 1);
    let refused = (1, 0, script + 1, [0; 3]);
    own(&long_script, &long_response, refused);
    own(&long_script, TRUE, refused);
    own("00", &long_response, (1, 1, response + 1, [0; 3]));
    let ended = (5, 0, script, [script, 1, script + 1]);
    own(&long_script[1..], &long_response[1..], ended);
}
