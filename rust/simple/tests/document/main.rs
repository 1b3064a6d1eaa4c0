//! Document 01 run: the readings, the vectors, the bench, constants, signed operators, assumptions, ends, lines and columns, names that are taken, non-terminals that
//! derive no term, the least of several derivations, weights, the texts' own answers, steps for the controller, the evidence file, every limit and every row of the
//! table of answers.

mod answers;
mod assumptions;
mod bench;
mod cases;
mod constants;
mod dead;
mod evidence;
mod generated;
mod judge;
mod least;
mod limits;
mod names;
mod places;
mod readings;
mod reserved;
mod signed;
mod steps;
mod texts;
mod vectors;
mod weights;
mod words;

use simple::{check, replay, AREA_LENGTH, LIST_LENGTH, UNUSED};

/// Answer number, text, place, second number and units.
type Five = (u8, u8, u64, u64, u64);

/// The answer for an area of the right size, which is judged as well as what the answer carries of its place and the texts' own answer, and the area.
fn answer_and_area(script: &str, response: &str, points: &[u64], budget: u64) -> (Five, Vec<u16>) {
    let mut area = vec![7; AREA_LENGTH];
    let (script, response) = (script.as_bytes(), response.as_bytes());
    let answer = check(script, response, points, budget, &mut area);
    let fault = replay::area_fault(script, response, answer.number, &area);
    assert_eq!(fault, None);
    places::assert_located(&answer, script, response);
    texts::assert_read(&answer, script, response);
    let five = (
        answer.number,
        answer.text,
        answer.place,
        answer.second,
        answer.units,
    );
    (five, area)
}

/// The answer alone.
fn answer(script: &str, response: &str, points: &[u64], budget: u64) -> Five {
    answer_and_area(script, response, points, budget).0
}

/// The list shown for a function.
fn shown(area: &[u16], function: usize) -> Vec<u16> {
    let list = area[LIST_LENGTH * function..].iter().take(LIST_LENGTH);
    let list = list.copied().take_while(|&entry| entry != UNUSED);
    list.collect()
}

/// A fault of the script.
fn in_script(number: u8, place: usize) -> Five {
    (number, 0, place as u64, 0, 0)
}

/// A fault of the response.
fn in_response(number: u8, place: usize) -> Five {
    (number, 1, place as u64, 0, 0)
}

/// A script with these commands between `set-logic` and `check-synth`, and a function f that may be `true`.
fn script_with(commands: &str) -> String {
    format!(
        "(set-logic BV)(synth-fun f () Bool ((A Bool)) ((A Bool (true (not A)))))\n{commands}\n(check-synth)"
    )
}

/// The response to such a script.
const TRUE: &str = "((define-fun f () Bool true))";

/// Holds each term of a table to its value: the equation is true, and distinct from it is false.
fn holds(table: &[(&str, &str)]) {
    for (term, value) in table {
        let equal = script_with(&format!("(constraint (= {term} {value}))"));
        assert_eq!(answer(&equal, TRUE, &[], 99).0, 0, "{term}");
        let distinct = script_with(&format!("(constraint (distinct {term} {value}))"));
        assert_eq!(answer(&distinct, TRUE, &[], 99).0, 14, "{term}");
    }
}

/// The place of the last occurrence of a part.
fn last(text: &str, part: &str) -> usize {
    text.rfind(part).expect("the part")
}

/// A balanced conjunction of so many equal leaves: 2·leaves - 1 nodes and 4·leaves - 3 words.
fn conjunction(leaf: &str, leaves: usize) -> String {
    if leaves == 1 {
        return leaf.to_string();
    }
    let half = leaves / 2;
    let (a, b) = (conjunction(leaf, half), conjunction(leaf, leaves - half));
    format!("(and {a} {b})")
}

/// A term within so many negations.
fn negated(term: &str, times: usize) -> String {
    format!("{}{term}{}", "(not ".repeat(times), ")".repeat(times))
}
