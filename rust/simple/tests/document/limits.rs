//! "Numbers the checker holds to": "The limit itself passes; one more is refused."

use crate::{answer, conjunction, in_response, in_script, last, negated, script_with, TRUE};
use simple::{check, AREA_LENGTH, UNUSED};

/// Accepted with no variables.
const ACCEPTED: (u8, u8, u64, u64, u64) = (0, 3, 0, 1, 0);

/// So many parts, each made from its number, one after another.
fn repeated(count: usize, part: impl Fn(usize) -> String) -> String {
    (0..count).map(part).collect()
}

/// The number of words of a text without comments.
fn count_words(text: &str) -> usize {
    let spaced = text.replace('(', " ( ").replace(')', " ) ");
    spaced.split_whitespace().count()
}

/// The answer's number, given enough budget.
fn number(script: &str, response: &str) -> u8 {
    answer(script, response, &[], 1_000_000).0
}

#[test]
fn script_bytes() {
    let script = script_with("");
    let padded = |length: usize| script.clone() + &" ".repeat(length - script.len());
    for length in [32_769, 65_536] {
        assert_eq!(answer(&padded(length), TRUE, &[], 0), ACCEPTED);
    }
    assert_eq!(answer(&padded(65_537), TRUE, &[], 0), in_script(1, 65_537));
}

#[test]
fn response_bytes() {
    let script = script_with("");
    let padded = |length: usize| TRUE.to_string() + &" ".repeat(length - TRUE.len());
    assert_eq!(answer(&script, &padded(8_192), &[], 0), ACCEPTED);
    assert_eq!(
        answer(&script, &padded(8_193), &[], 0),
        in_response(1, 8_193)
    );
}

#[test]
fn script_words() {
    let mut commands = repeated(15, |_| {
        format!("(constraint {})\n", conjunction("true", 128))
    });
    let left = 8_192 - count_words(&script_with(&commands));
    let negations = 3 * left % 4;
    let leaves = (left - 3 * negations) / 4;
    let double = conjunction("true", leaves).replacen("true", &negated("true", negations), 1);
    commands += &format!("(constraint {double})");
    let script = script_with(&commands);
    assert_eq!(count_words(&script), 8_192);
    assert!(matches!(number(&script, TRUE), 0 | 14));
    let longer = script.clone() + " x";
    let place = script.len() + 1;
    assert_eq!(answer(&longer, TRUE, &[], 0), in_script(4, place));
}

#[test]
fn response_words() {
    let function = |index| {
        format!("(synth-fun f{index} () Bool ((A Bool)) ((A Bool (true (and A A) (not A)))))")
    };
    let script = format!("(set-logic BV){}(check-synth)", repeated(4, function));
    let body = conjunction("true", 128);
    let filled = |index| format!("(define-fun f{index} () Bool {body})");
    let begin = format!("({}", repeated(3, filled));
    let left = 2_048 - count_words(&begin) - count_words("(define-fun f3 () Bool))");
    let negations = (3 * (left + 3)) % 4;
    let leaves = (left + 3 - 3 * negations) / 4;
    let body = conjunction("true", leaves).replacen("true", &negated("true", negations), 1);
    let response = format!("{begin}(define-fun f3 () Bool {body}))");
    assert_eq!(count_words(&response), 2_048);
    assert_eq!(number(&script, &response), 0);
    let longer = response.clone() + " x";
    let place = response.len() + 1;
    assert_eq!(answer(&script, &longer, &[], 0), in_response(4, place));
}

#[test]
fn nesting() {
    let script = script_with(&format!("(constraint {})", negated("true", 62)));
    assert_eq!(number(&script, TRUE), 0);
    let script = script_with(&format!("(constraint {})", negated("true", 63)));
    assert_eq!(number(&script, TRUE), 14);
    let script = script_with(&format!("(constraint {})", negated("true", 64)));
    assert_eq!(
        answer(&script, TRUE, &[], 0),
        in_script(4, last(&script, "(not true"))
    );
    let script = script_with("");
    let response = |times| format!("((define-fun f () Bool {}))", negated("true", times));
    assert_eq!(number(&script, &response(62)), 0);
    let deep = response(63);
    assert_eq!(
        answer(&script, &deep, &[], 0),
        in_response(4, last(&deep, "(not true"))
    );
}

#[test]
fn sizes_of_words() {
    for (sound, long) in [
        ("9".repeat(9), "1".repeat(10)),
        (
            format!("#x{}", "0".repeat(16)),
            format!("#x{}", "0".repeat(17)),
        ),
        (
            format!("#b{}", "1".repeat(64)),
            format!("#b{}", "1".repeat(65)),
        ),
        ("s".repeat(64), "s".repeat(65)),
    ] {
        assert_eq!(answer(&sound, TRUE, &[], 0), in_script(5, 0));
        assert_eq!(answer(&long, TRUE, &[], 0), in_script(4, 0));
    }
}

#[test]
fn synthesized_functions() {
    let function = |index| format!("(synth-fun f{index} () Bool ((A Bool)) ((A Bool (true))))");
    let script = |count| format!("(set-logic BV){}(check-synth)", repeated(count, function));
    let definition = |index| format!("(define-fun f{index} () Bool true)");
    let response = format!("({})", repeated(8, definition));
    assert_eq!(answer(&script(8), &response, &[], 0), ACCEPTED);
    let ninth = in_script(4, last(&script(9), "(synth-fun"));
    assert_eq!(answer(&script(9), &response, &[], 0), ninth);
}

#[test]
fn definitions() {
    let definition = |index| format!("(define-fun d{index} () Bool true)");
    let script = |count| script_with(&repeated(count, definition));
    assert_eq!(answer(&script(32), TRUE, &[], 0), ACCEPTED);
    let past = in_script(4, last(&script(33), "(define-fun"));
    assert_eq!(answer(&script(33), TRUE, &[], 0), past);
}

#[test]
fn variables() {
    let variable = |index| format!("(declare-var v{index} Bool)");
    let script = |count| script_with(&repeated(count, variable));
    assert_eq!(answer(&script(16), TRUE, &[1; 32], 0), (0, 3, 0, 2, 0));
    let past = in_script(4, last(&script(17), "(declare-var"));
    assert_eq!(answer(&script(17), TRUE, &[], 0), past);
}

#[test]
fn constraints() {
    let script = |count| script_with(&repeated(count, |_| "(constraint true)".to_string()));
    assert_eq!(answer(&script(64), TRUE, &[], 64), (0, 3, 0, 1, 64));
    let past = in_script(4, last(&script(65), "(constraint"));
    assert_eq!(answer(&script(65), TRUE, &[], 64), past);
}

#[test]
fn arguments() {
    let arguments = |count| repeated(count, |index| format!("(a{index} Bool)"));
    let definition = |count| format!("(define-fun g ({}) Bool true)", arguments(count));
    let script = script_with(&definition(8));
    assert_eq!(answer(&script, TRUE, &[], 0), ACCEPTED);
    let script = script_with(&definition(9));
    assert_eq!(
        answer(&script, TRUE, &[], 0),
        in_script(4, last(&script, "(a8"))
    );
    let synth = |count| {
        format!(
            "(synth-fun g ({}) Bool ((A Bool)) ((A Bool (true))))",
            arguments(count)
        )
    };
    let script = script_with(&synth(9));
    assert_eq!(
        answer(&script, TRUE, &[], 0),
        in_script(4, last(&script, "(a8"))
    );
    let script = script_with(&synth(8));
    let response = |count| format!("((define-fun f () Bool true){})", definition(count));
    assert_eq!(answer(&script, &response(8), &[], 0), ACCEPTED);
    let past = in_response(4, last(&response(9), "(a8"));
    assert_eq!(answer(&script, &response(9), &[], 0), past);
}

#[test]
fn nonterminals() {
    let pairs = |count| repeated(count, |index| format!("(A{index} Bool)"));
    let groups = |count| repeated(count, |index| format!("(A{index} Bool (true A{index}))"));
    let synth = |count| {
        format!(
            "(synth-fun g () Bool ({}) ({}))",
            pairs(count),
            groups(count)
        )
    };
    let script = script_with(&synth(16));
    let response = "((define-fun f () Bool true)(define-fun g () Bool true))";
    assert_eq!(answer(&script, response, &[], 0), ACCEPTED);
    let script = script_with(&synth(17));
    let past = in_script(4, last(&script, "(A16 Bool)"));
    assert_eq!(answer(&script, response, &[], 0), past);
}

#[test]
fn a_chain_through_all_nonterminals_fills_a_list() {
    let pairs = repeated(16, |index| format!("(A{index} Bool)"));
    let chain = |index| match index {
        15 => "(A15 Bool (x (and A0 A0)))".to_string(),
        _ => format!("(A{index} Bool (A{}))", index + 1),
    };
    let groups = repeated(16, chain);
    let script =
        format!("(set-logic BV)(synth-fun f ((x Bool)) Bool ({pairs}) ({groups}))(check-synth)");
    let body = conjunction("x", 128);
    let response = format!("((define-fun f ((x Bool)) Bool {body}))");
    let mut area = vec![0; AREA_LENGTH];
    let answer = check(script.as_bytes(), response.as_bytes(), &[], 0, &mut area);
    assert_eq!(answer.number, 0);
    assert_eq!(crate::shown(&area, 0).len(), 16 * 255);
    assert!(area[16 * 255..].iter().all(|&entry| entry == UNUSED));
}

#[test]
fn rules() {
    let synth = |count: usize| {
        let rules = "true ".repeat(count - 64);
        format!(
            "(synth-fun g () Bool ((A Bool) (B Bool)) ((A Bool ({})) (B Bool ({rules}))))",
            "true ".repeat(64)
        )
    };
    let script = script_with(&synth(128));
    let response = "((define-fun f () Bool true)(define-fun g () Bool true))";
    assert_eq!(answer(&script, response, &[], 0), ACCEPTED);
    let script = script_with(&synth(129));
    assert_eq!(
        answer(&script, response, &[], 0),
        in_script(4, last(&script, "true"))
    );
}

#[test]
fn nodes_of_a_body() {
    let script = |leaf| {
        script_with(&format!(
            "(define-fun g ((x Bool)) Bool {})",
            negated_conjunction(leaf)
        ))
    };
    assert_eq!(answer(&script("x"), TRUE, &[], 0), ACCEPTED);
    let long = script("(not x)");
    assert_eq!(
        answer(&long, TRUE, &[], 0),
        in_script(4, last(&long, "x))"))
    );
}

#[test]
fn nodes_of_a_constraint() {
    let script = |leaf| script_with(&format!("(constraint {})", negated_conjunction(leaf)));
    assert_eq!(number(&script("true"), TRUE), 14);
    let long = script("(not true)");
    assert_eq!(
        answer(&long, TRUE, &[], 0),
        in_script(4, last(&long, "true"))
    );
}

#[test]
fn nodes_of_a_rule() {
    let script = |leaf| {
        let rule = negated_conjunction(leaf);
        script_with(&format!(
            "(synth-fun g () Bool ((A Bool)) ((A Bool ({rule}))))"
        ))
    };
    let response = format!(
        "((define-fun f () Bool true)(define-fun g () Bool {}))",
        negated_conjunction("true")
    );
    assert_eq!(answer(&script("true"), &response, &[], 0), ACCEPTED);
    let long = script("(not true)");
    assert_eq!(
        answer(&long, TRUE, &[], 0),
        in_script(4, last(&long, "true"))
    );
}

#[test]
fn nodes_of_a_response_body() {
    let script = "(set-logic BV)(synth-fun f () Bool ((A Bool)) ((A Bool (true (and A A) (not A)))))(check-synth)";
    let response = |leaf| format!("((define-fun f () Bool {}))", negated_conjunction(leaf));
    assert_eq!(answer(script, &response("true"), &[], 0), ACCEPTED);
    let long = response("(not true)");
    assert_eq!(
        answer(script, &long, &[], 0),
        in_response(4, last(&long, "true"))
    );
}

/// A negated conjunction of 256 nodes whose last leaf is given: one leaf more is one node past the limit.
fn negated_conjunction(leaf: &str) -> String {
    let leaves = if leaf.contains('x') { "x" } else { "true" };
    let conjunction = conjunction(leaves, 128);
    let end = last(&conjunction, leaves);
    let closing = &conjunction[end + leaves.len()..];
    format!("(not {}{leaf}{closing})", &conjunction[..end])
}

#[test]
fn widths() {
    let script = |width| script_with(&format!("(declare-var x (_ BitVec {width}))"));
    assert_eq!(answer(&script(64), TRUE, &[u64::MAX], 0), (0, 3, 0, 1, 0));
    assert_eq!(answer(&script(1), TRUE, &[1], 0), (0, 3, 0, 1, 0));
    let wide = script(65);
    assert_eq!(answer(&wide, TRUE, &[], 0), in_script(4, last(&wide, "65")));
    let none = script(0);
    assert_eq!(answer(&none, TRUE, &[], 0), in_script(8, last(&none, "(_")));
}

#[test]
fn point_numbers() {
    let script = script_with("(declare-var x (_ BitVec 8))");
    assert_eq!(answer(&script, TRUE, &[255; 1_024], 0), (0, 3, 0, 1_024, 0));
    let past = (1, 2, 1_025, 0, 0);
    assert_eq!(answer(&script, TRUE, &[255; 1_025], 0), past);
}

#[test]
fn budget() {
    let script = script_with("(declare-var x Bool)(constraint (or x (not x)))");
    assert_eq!(answer(&script, TRUE, &[0, 1], u64::MAX), (0, 3, 0, 2, 8));
    assert_eq!(answer(&script, TRUE, &[0, 1], 8), (0, 3, 0, 2, 8));
    assert_eq!(answer(&script, TRUE, &[0, 1], 7), (15, 2, 1, 0, 4));
    assert_eq!(answer(&script, TRUE, &[0, 1], 0), (15, 2, 0, 0, 0));
}

#[test]
fn area_length() {
    let script = script_with("");
    for length in [0, 1, AREA_LENGTH - 1, AREA_LENGTH + 1] {
        let mut area = vec![9; length];
        let answer = check(script.as_bytes(), TRUE.as_bytes(), &[], 0, &mut area);
        assert_eq!(
            (answer.number, answer.text, answer.place),
            (1, 3, length as u64)
        );
        assert!(area.iter().all(|&entry| entry == 9));
    }
}

#[test]
fn lengths_come_first_in_their_order() {
    for (lengths, (text, place)) in [
        ([70_000, 9_000, 2_000], (0, 70_000)),
        ([0, 9_000, 2_000], (1, 9_000)),
        ([0, 0, 2_000], (2, 2_000)),
        ([0, 0, 0], (3, 3)),
    ] {
        let [script, response] = [lengths[0], lengths[1]].map(|length| vec![b' '; length]);
        let points = vec![0; lengths[2]];
        let mut area = vec![9; 3];
        let answer = check(&script, &response, &points, 0, &mut area);
        assert_eq!((answer.number, answer.text, answer.place), (1, text, place));
        assert!(area.iter().all(|&entry| entry == 9));
        let mut area = vec![9; AREA_LENGTH];
        check(&script, &response, &points, 0, &mut area);
        assert!(area.iter().all(|&entry| entry == UNUSED));
    }
}

#[test]
fn the_deepest_evaluation_returns() {
    let definition = |index: usize| match index {
        0 => "(define-fun d0 () Bool true)".to_string(),
        _ => {
            let body = negated(&format!("d{}", index - 1), 62);
            format!("(define-fun d{index} () Bool {body})")
        }
    };
    let commands = repeated(20, definition) + "(constraint d19)";
    let run = move || answer(&script_with(&commands), TRUE, &[], 10_000);
    let thread = std::thread::Builder::new().stack_size(1 << 26).spawn(run);
    let answer = thread.expect("a thread").join().expect("an answer");
    assert_eq!(answer, (0, 3, 0, 1, 19 * 63 + 2));
}
