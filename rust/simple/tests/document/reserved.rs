//! "The new names become reserved": names, operands, sorts and rules of the operators that request E4 adds.

use crate::signed::{names, ORDERS, WORDS};
use crate::{answer, answer_and_area, in_script, last, script_with, shown, TRUE};
use simple::operators::OPERATORS;

/// Holds a script with these commands to a fault at the last occurrence of a part.
fn refused(number: u8, commands: &str, part: &str) {
    let script = script_with(commands);
    let expected = in_script(number, last(&script, part));
    assert_eq!(answer(&script, TRUE, &[], 99), expected, "{commands}");
}

/// Holds a constraint of a term to a fault at the last occurrence of a part.
fn term_refused(number: u8, term: &str, part: &str) {
    refused(number, &format!("(constraint {term})"), part);
}

/// The rules that are shown for a body and a grammar with these operators on words, none where there is no derivation.
fn derived(orders: &[&str], words: &[&str], body: &str) -> Option<Vec<u16>> {
    let rule = |name: &&str| format!("({name} B B) ");
    let orders: String = orders.iter().map(rule).collect();
    let words: String = words.iter().map(rule).collect();
    let header = "f ((x (_ BitVec 8))) Bool";
    let script = format!(
        "(set-logic BV)(synth-fun {header} ((A Bool) (B (_ BitVec 8)))
            ((A Bool (true {orders})) (B (_ BitVec 8) (x {words}))))(check-synth)"
    );
    let response = format!("((define-fun {header} {body}))");
    let (answer, area) = answer_and_area(&script, &response, &[], 0);
    assert!(matches!(answer.0, 0 | 13), "{answer:?} {body}");
    (answer.0 == 0).then(|| shown(&area, 0))
}

/// All names but one.
fn without<'a>(names: &[&'a str], name: &str) -> Vec<&'a str> {
    names.iter().copied().filter(|one| *one != name).collect()
}

#[test]
fn the_readings_of_names_hold() {
    let reserved = "(set-logic BV)(declare-var bvsdiv Bool)(synth-fun f () Bool ((A Bool)) ((A Bool (true))))(check-synth)";
    assert_eq!(answer(reserved, TRUE, &[], 100), in_script(7, 27));
    let variables = "(set-logic BV)(declare-var x (_ BitVec 8))(declare-var p Bool)";
    let leaf = format!("{variables}(constraint (= x bvsdiv))");
    assert_eq!(answer(&leaf, TRUE, &[], 100), in_script(8, 79));
    let unknown = format!("{variables}(constraint (= x (bvnand x x)))");
    assert_eq!(answer(&unknown, TRUE, &[], 100), in_script(7, 80));
    let known = format!("{variables}(constraint (bvsle x x))");
    assert_eq!(answer(&known, TRUE, &[], 100), in_script(5, 86));
}

#[test]
fn the_new_operators_stand_behind_extract() {
    let table: Vec<&str> = OPERATORS.iter().map(|one| one.name).collect();
    assert_eq!(table[22], "extract");
    assert_eq!(table[23..], names());
}

#[test]
fn the_new_names_are_reserved() {
    for name in names() {
        for command in [
            format!("(declare-var {name} Bool)"),
            format!("(declare-var x {name})"),
            format!("(define-fun {name} () Bool true)"),
            format!("(define-fun g (({name} Bool)) Bool true)"),
            format!("(synth-fun {name} () Bool ((B Bool)) ((B Bool (true))))"),
            format!("(synth-fun g (({name} Bool)) Bool ((B Bool)) ((B Bool (true))))"),
            format!("(synth-fun g () Bool (({name} Bool)) ((B Bool (true))))"),
        ] {
            refused(7, &command, name);
        }
    }
}

#[test]
fn other_names_are_free_and_unknown() {
    let shorter = names()
        .into_iter()
        .map(|name| name[..name.len() - 1].to_string());
    let longer = names().into_iter().map(|name| format!("{name}0"));
    let others = ["bvcomp", "bvnand", "bvnor", "bvxnor"].map(String::from);
    for name in shorter.chain(longer).chain(others) {
        let script = script_with(&format!("(declare-var {name} Bool)"));
        assert_eq!(answer(&script, TRUE, &[], 0), (0, 3, 0, 0, 0), "{name}");
        term_refused(7, &format!("(= #x00 ({name} #x00 #x00))"), &name);
        term_refused(7, &name, &name);
    }
}

#[test]
fn the_new_operators_take_two_words_of_one_width() {
    for name in names() {
        term_refused(8, name, name);
        term_refused(8, &format!("(= #x00 {name})"), name);
        term_refused(5, &format!("({name})"), "(constraint");
        term_refused(6, &format!("((_ {name} 1) #x00)"), "(constraint");
        term_refused(8, &format!("({name} #x00 5)"), "5");
        for operands in [
            "#x00",
            "#x00 #x00 #x00",
            "#x00 #x0",
            "#b0 #x00",
            "true true",
            "true #x00",
            "#x00 false",
        ] {
            let term = format!("({name} {operands})");
            term_refused(8, &format!("(= true {term})"), &term);
        }
    }
}

#[test]
fn the_new_operators_give_that_width_or_a_bool() {
    for name in WORDS {
        term_refused(8, &format!("({name} #x00 #x00)"), &format!("({name}"));
        term_refused(8, &format!("(= #x0 ({name} #x00 #x00))"), "(= #x0");
    }
    for name in ORDERS {
        term_refused(8, &format!("(= #b1 ({name} #x00 #x00))"), "(= #b1");
        let script = script_with(&format!("(constraint (= false ({name} #x00 #x00)))"));
        assert!(matches!(answer(&script, TRUE, &[], 99).0, 0 | 14), "{name}");
    }
}

#[test]
fn the_new_operators_stand_in_rules_and_bodies() {
    for (i, order) in (1..).zip(ORDERS) {
        for (j, word) in (9..).zip(WORDS) {
            let body = format!("({order} x ({word} x x))");
            let shown = Some(vec![i, 8, j, 8, 8]);
            assert_eq!(derived(&ORDERS, &WORDS, &body), shown, "{body}");
            assert_eq!(derived(&without(&ORDERS, order), &WORDS, &body), None);
            assert_eq!(derived(&ORDERS, &without(&WORDS, word), &body), None);
        }
    }
}
