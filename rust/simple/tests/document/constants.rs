//! "A constant is a number": literals by value and width, `(_ bvN n)` and its faults, and the operand counts of Core.

use crate::{answer, answer_and_area, in_response, in_script, last, script_with, shown, TRUE};

/// Holds a script with these commands to a fault at the last occurrence of a part.
fn refused(number: u8, commands: &str, part: &str) {
    let script = script_with(commands);
    let expected = in_script(number, last(&script, part));
    assert_eq!(answer(&script, TRUE, &[], 99), expected, "{commands}");
}

/// The rules that are shown for a body of 8 bits and a grammar with these rules, none where there is no derivation.
fn derived(rules: &str, body: &str) -> Option<Vec<u16>> {
    let script = format!(
        "(set-logic BV)(synth-fun f ((x (_ BitVec 8))) (_ BitVec 8) ((bv5 (_ BitVec 8)))
            ((bv5 (_ BitVec 8) ({rules}))))(check-synth)"
    );
    let response = format!("((define-fun f ((x (_ BitVec 8))) (_ BitVec 8) {body}))");
    let (answer, area) = answer_and_area(&script, &response, &[], 0);
    assert!(matches!(answer.0, 0 | 13), "{answer:?} {rules} {body}");
    (answer.0 == 0).then(|| shown(&area, 0))
}

#[test]
fn a_literal_is_its_value_and_width() {
    let spellings = ["#x0f", "#x0F", "#b00001111", "(_ bv15 8)"];
    for rule in spellings {
        for body in spellings {
            assert_eq!(derived(rule, body), Some(vec![0]), "{rule} {body}");
            let (rule, body) = (format!("(bvnot {rule})"), format!("(bvnot {body})"));
            assert_eq!(derived(&rule, &body), Some(vec![0]), "{rule} {body}");
        }
        for other in ["#x0e", "#b00001110", "(_ bv14 8)", "x"] {
            assert_eq!(derived(rule, other), None, "{rule} {other}");
        }
        let constant = "(Constant (_ BitVec 8))";
        assert_eq!(derived(constant, rule), Some(vec![0]));
    }
    let four = ["#x1", "#b0001", "(_ bv1 4)"];
    let test = |literal: &str| format!("(ite (= {literal} {literal}) x x)");
    for one in four {
        for other in four {
            assert_eq!(derived(&test(one), &test(other)), Some(vec![0]));
        }
        for other in ["#b001", "#b00001", "(_ bv1 3)", "#x01"] {
            assert_eq!(derived(&test(one), &test(other)), None);
        }
    }
}

#[test]
fn a_non_terminal_may_be_called_like_a_constant() {
    assert_eq!(derived("x (bvnot bv5)", "(bvnot x)"), Some(vec![1, 0]));
    assert_eq!(derived("x (_ bv5 8)", "(_ bv5 8)"), Some(vec![1]));
    assert_eq!(derived("x (_ bv5 8)", "x"), Some(vec![0]));
    assert_eq!(
        derived("x (bvadd bv5 (_ bv5 8))", "(bvadd x #x05)"),
        Some(vec![1, 0])
    );
    assert_eq!(derived("x (bvadd bv5 (_ bv5 8))", "(bvadd x x)"), None);
}

#[test]
fn terms_are_compared_as_written_apart_from_literals() {
    let script = |rule: &str| {
        format!(
            "(set-logic BV)(synth-fun f ((a Bool)) Bool ((A Bool)) ((A Bool (a {rule}))))(check-synth)"
        )
    };
    let response = |body: &str| format!("((define-fun f ((a Bool)) Bool {body}))");
    let cases = [
        ("(and A A)", "(and a a a)", false),
        ("(and A A A)", "(and (and a a) a)", false),
        ("(and A A A)", "(and a (and a a a) a)", true),
        ("(=> A A A)", "(=> a (=> a a))", false),
        ("(= A A A)", "(and (= a a) (= a a))", false),
        ("(distinct A A A A)", "(distinct a a a a)", true),
    ];
    for (rule, body, found) in cases {
        let number = if found { 0 } else { 13 };
        let answer = answer(&script(rule), &response(body), &[], 0);
        assert_eq!(answer.0, number, "{rule} {body}");
    }
}

#[test]
fn a_constant_has_its_value() {
    for (constant, literal) in [
        ("(_ bv0 1)", "#b0"),
        ("(_ bv1 1)", "#b1"),
        ("(_ bv15 8)", "#x0F"),
        ("(_ bv255 8)", "#xff"),
        ("(_ bv9223372036854775808 64)", "#x8000000000000000"),
        ("(_ bv18446744073709551615 64)", "#xFFFFFFFFFFFFFFFF"),
    ] {
        let script = script_with(&format!("(constraint (= {constant} {literal}))"));
        assert_eq!(answer(&script, TRUE, &[], 99), (0, 3, 0, 1, 3));
        let script = script_with(&format!("(constraint (distinct {constant} {literal}))"));
        assert_eq!(answer(&script, TRUE, &[], 99), (14, 2, 0, 0, 3));
    }
}

#[test]
fn what_is_no_constant_is_6_or_5() {
    for term in [
        "(_ bv 8)",
        "(_ bv05 8)",
        "(_ bv00 8)",
        "(_ bvx 8)",
        "(_ bv5x 8)",
        "(_ bv-5 8)",
        "(_ Bv5 8)",
        "(_ 5 8)",
        "(_ (_ bv5 8))",
    ] {
        refused(6, &format!("(constraint {term})"), "(constraint");
    }
    for term in [
        "(_ bv5)",
        "(_ bv5 x)",
        "(_ bv5 bv8)",
        "(_ bv5 #x8)",
        "(_ bv5 8 8)",
        "(_ bv5 (8))",
        "(_ bv111111111111111111111)",
        "((_ bv5 8) true)",
        "((_ bv5 8))",
    ] {
        refused(5, &format!("(constraint {term})"), "(constraint");
    }
    refused(5, "(declare-var x (_ bv5 8))", "(declare-var");
    refused(5, "(define-fun g () (_ bv5 8) true)", "(define-fun");
    refused(7, "(define-fun g ((_ bv5)) Bool true)", "_ bv5");
    let rule = "(synth-fun g () Bool ((B Bool)) ((B Bool ((Constant (_ bv5 8))))))";
    refused(5, rule, "(synth-fun");
}

#[test]
fn a_constant_past_its_bounds_is_4_or_8() {
    let (twenty, more) = ("9".repeat(20), "1".repeat(21));
    let equation = |constant: &str| format!("(constraint (= #x00 {constant}))");
    refused(4, &equation(&format!("(_ bv{more} 8)")), "bv");
    refused(4, &equation(&format!("(_ bv{more} 65)")), "bv");
    refused(4, &equation(&format!("(_ bv{more} 0)")), "bv");
    refused(4, &equation(&format!("(_ bv{} 8)", "1".repeat(62))), "bv");
    refused(4, &equation("(_ bv0 65)"), "65");
    refused(4, &equation("(_ bv0 999999999)"), "999999999");
    refused(8, &equation(&format!("(_ bv{twenty} 64)")), "(_");
    refused(8, &equation("(_ bv18446744073709551616 64)"), "(_");
    refused(8, &equation("(_ bv256 8)"), "(_");
    refused(8, &equation("(_ bv2 1)"), "(_");
    refused(8, &equation("(_ bv0 0)"), "(_");
    refused(8, &equation("(_ bv0 9)"), "(=");
    refused(8, "(constraint (_ bv1 1))", "(_");
    let rule = "(synth-fun g () Bool ((B Bool)) ((B Bool (#x00 (= (_ bv256 8) #x00)))))";
    refused(8, rule, "(_");
    let long = format!("(constraint (= #x00 (_ bv{} 8)))", "1".repeat(63));
    refused(4, &long, "bv");
    let script = script_with("");
    let response = format!("((define-fun f () Bool (= #x00 (_ bv{more} 8))))");
    let expected = in_response(4, last(&response, "bv"));
    assert_eq!(answer(&script, &response, &[], 0), expected);
    let response = "((define-fun f () Bool (= #x00 (_ bv256 8))))";
    let expected = in_response(8, last(response, "(_"));
    assert_eq!(answer(&script, response, &[], 0), expected);
}

#[test]
fn a_word_bv5_is_a_name_like_another() {
    let script = script_with(
        "(declare-var bv5 Bool)(define-fun bv8 ((bv Bool)) Bool bv)(constraint (bv8 bv5))",
    );
    assert_eq!(answer(&script, TRUE, &[1, 0], 99), (14, 2, 1, 0, 6));
    refused(7, "(constraint bv5)", "bv5");
    refused(7, "(constraint (bv5 true))", "bv5");
    refused(7, "(declare-var x bv5)", "bv5");
}

#[test]
fn core_operators_have_two_or_more_operands() {
    for name in ["and", "or", "xor", "=>", "=", "distinct"] {
        refused(
            8,
            &format!("(constraint ({name} true))"),
            &format!("({name} true"),
        );
        refused(5, &format!("(constraint ({name}))"), "(constraint");
        refused(8, &format!("(constraint {name})"), &format!("{name})"));
        let many = format!("(constraint ({name} true true #x00 5))");
        refused(8, &many, "5");
        refused(8, &many.replace(" 5", ""), &format!("({name} true"));
    }
    refused(8, "(constraint (= #x00 #x00 #x0))", "(= #");
    for term in [
        "(not true true)",
        "(ite true true true true)",
        "(bvult #x00 #x00 #x00)",
        "(bvand #x00 #x00 #x00)",
        "(concat #x00 #x00 #x00)",
    ] {
        refused(8, &format!("(constraint {term})"), term);
    }
}

#[test]
fn core_operators_group_chain_and_compare_pairwise() {
    for (term, holds) in [
        ("(and true true true)", true),
        ("(and true true false)", false),
        ("(and false true true)", false),
        ("(or false false true)", true),
        ("(or false false false false)", false),
        ("(xor true true true)", true),
        ("(xor true true true true)", false),
        ("(xor true false false)", true),
        ("(=> false true false)", true),
        ("(=> true true false)", false),
        ("(=> true false false)", true),
        ("(=> true true true false)", false),
        ("(= true true true)", true),
        ("(= true false true)", false),
        ("(= true false false)", false),
        ("(= #x01 #b00000001 (_ bv1 8))", true),
        ("(= #x01 #x01 #x02)", false),
        ("(distinct true false true)", false),
        ("(distinct #x01 #x02 #x03 #x04)", true),
        ("(distinct #x01 #x02 #x03 #x01)", false),
        ("(distinct #x01 #x02 #x03 #x02)", false),
    ] {
        let script = script_with(&format!("(constraint {term})"));
        let number = if holds { 0 } else { 14 };
        assert_eq!(answer(&script, TRUE, &[], 99).0, number, "{term}");
    }
}

#[test]
fn the_cost_is_1_and_the_operands() {
    let script = script_with("(constraint (and true (or false true true) (= #x00 (_ bv0 8))))");
    assert_eq!(answer(&script, TRUE, &[], 9), (0, 3, 0, 1, 9));
    assert_eq!(answer(&script, TRUE, &[], 8), (15, 2, 0, 0, 0));
}

#[test]
fn a_constant_is_one_node_of_256() {
    let script = |operands: &str| script_with(&format!("(constraint (= {operands}))"));
    let sound = script(&"(_ bv5 8) ".repeat(255));
    assert_eq!(answer(&sound, TRUE, &[], 256), (0, 3, 0, 1, 256));
    let long = script(&"(_ bv5 8) ".repeat(256));
    let expected = in_script(4, last(&long, "(_"));
    assert_eq!(answer(&long, TRUE, &[], 256), expected);
}
