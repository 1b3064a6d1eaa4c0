//! Request E13: the feature, and rules written `(! t :weight k)`.

use crate::{answer, in_script, last, TRUE};
use simple::generate::{crowded, mutated, tangled, valid, Case};
use simple::{check, read, AREA_LENGTH};

/// A script with the feature and a function of these rules.
fn weighted(rules: &str) -> String {
    format!("(set-logic BV)(set-feature :weights true)(synth-fun f () Bool ((A Bool)) ((A Bool ({rules}))))(check-synth)")
}

/// The weight of the first function, and its list.
fn shown(script: &str, response: &str) -> (u64, Vec<u16>) {
    let mut area = vec![7; AREA_LENGTH];
    let found = check(script.as_bytes(), response.as_bytes(), &[], 0, &mut area);
    assert_eq!(
        (found.number, &found.weights[1..]),
        (0, &[0; 7][..]),
        "{script}"
    );
    (found.weights[0], crate::shown(&area, 0))
}

#[test]
fn a_rule_weighs_its_one_attribute() {
    for (rules, weight, list) in [
        ("true", 0, 0),
        ("(! true :weight 7)", 7, 0),
        ("(! true :weight 65535)", 65_535, 0),
        ("(! true :weight 7 :weight 3)", 0, 0),
        (
            "(! true :weight 2) (! true :weight 1) (! true :weight 1)",
            1,
            1,
        ),
        ("(! true :weight 1) (! true :weight 1 :weight 1)", 0, 1),
        ("(! A :weight 0) (! true :weight 4)", 4, 1),
    ] {
        assert_eq!(
            shown(&weighted(rules), TRUE),
            (weight, vec![list]),
            "{rules}"
        );
    }
}

#[test]
fn less_weight_comes_before_fewer_rules() {
    let script = "(set-logic BV)(set-feature :weights true)(synth-fun f () Bool ((A Bool)(B Bool)(C Bool))
        ((A Bool ((! true :weight 5) B)) (B Bool (C)) (C Bool ((! true :weight 1) (! true :weight 1)))))(check-synth)";
    assert_eq!(shown(script, TRUE), (1, vec![1, 2, 3]));
}

#[test]
fn faults_of_weighted_rules() {
    for (number, rules, part) in [
        (5, "(! true)", "(synth-fun"),
        (5, "(! true :weight)", "(synth-fun"),
        (5, "(! true :weight true)", "(synth-fun"),
        (5, "(! (Constant Bool) :weight 1)", "(synth-fun"),
        (5, "(! true :weights 1)", "(synth-fun"),
        (6, "(not (! A :weight 1)) true", "(synth-fun"),
        (6, "(! (! true :weight 1) :weight 2)", "(synth-fun"),
        (4, "(! true :weight 1 :weight 65536)", "65536"),
        (7, "(! unseen :weight 1)", "unseen"),
        (8, "(! (and A #x00) :weight 1)", "(and"),
        (9, "(! #x00 :weight 1)", "(!"),
    ] {
        let script = weighted(rules);
        let expected = in_script(number, last(&script, part));
        assert_eq!(answer(&script, TRUE, &[], 0), expected, "{rules}");
    }
}

/// How many of the cases that a maker makes have an answer of a number, and the keyword of a weight in their script.
fn count(make: fn(u64) -> Case, number: u8) -> usize {
    let has = |case: &Case| {
        let keyword = case.script.windows(8).any(|part| part == b":weight ");
        keyword && read(&case.script, &case.response).number == number
    };
    (0..1_000).map(make).filter(has).count()
}

#[test]
fn cases_have_weights() {
    for (make, number, least) in [
        (valid as fn(u64) -> Case, 0, 150),
        (tangled, 0, 500),
        (mutated, 4, 4),
        (mutated, 5, 20),
        (mutated, 6, 20),
        (mutated, 9, 5),
        (crowded, 6, 20),
    ] {
        let found = count(make, number);
        assert!(found >= least, "{found} of answer {number}, not {least}");
    }
}
