//! A few cases for every row of the table of answers; 1 to 4 stand with the words and the limits.

use crate::{answer, in_response, in_script, last, script_with, TRUE};

/// Two functions, the second with an argument.
const TWO: &str = "(set-logic BV)(define-fun d () Bool true)
(synth-fun f () Bool ((A Bool)) ((A Bool (true d))))
(synth-fun g ((x (_ BitVec 8))) (_ BitVec 8) ((A (_ BitVec 8))) ((A (_ BitVec 8) (x (bvnot A)))))
(check-synth)";

/// Holds a script with these commands to a fault at the last occurrence of a part.
fn refused(number: u8, commands: &str, part: &str) {
    let script = script_with(commands);
    let expected = in_script(number, last(&script, part));
    assert_eq!(answer(&script, TRUE, &[], 0), expected, "{commands}");
}

/// Holds a response to the two functions to a fault at the last occurrence of a part.
fn response_refused(number: u8, response: &str, part: &str) {
    let expected = in_response(number, last(response, part));
    assert_eq!(answer(TWO, response, &[], 0), expected, "{response}");
}

/// A response with these bodies of the two functions.
fn bodies(f: &str, g: &str) -> String {
    format!("((define-fun f () Bool {f})(define-fun g ((x (_ BitVec 8))) (_ BitVec 8) {g}))")
}

#[test]
fn accepted_is_0() {
    let accepted = (0, 3, 0, 1, 0);
    assert_eq!(answer(TWO, &bodies("true", "x"), &[], 0), accepted);
    let longer = bodies("d", "(bvnot (bvnot x))");
    assert_eq!(answer(TWO, &longer, &[], 0), accepted);
    let script = script_with("(declare-var p Bool)(constraint (= p p))");
    assert_eq!(answer(&script, TRUE, &[], 0), (0, 3, 0, 0, 0));
    assert_eq!(answer(&script, TRUE, &[1, 0, 1], 9), (0, 3, 0, 3, 9));
}

#[test]
fn unknown_shapes_are_5() {
    for commands in [
        "(foo)",
        "()",
        "(set-logic BV)",
        "(declare-fun h () Bool)",
        "(declare-var x)",
        "(declare-var 5 Bool)",
        "(declare-var x (_ BitVec x))",
        "(define-fun g (x Bool) Bool true)",
        "(define-fun g () Bool (true))",
        "(constraint (_ BitVec 8))",
        "(constraint ((_ extract 1) #x00))",
        "(constraint (#x00 true))",
        "(constraint (true true))",
        "(constraint (false true))",
        "(constraint (_ extract 1))",
        "(constraint (Variable Bool))",
        "(constraint (5 true))",
        "(constraint ((not true) true))",
        "(constraint (Constant Bool))",
        "(constraint (f))",
        "(synth-fun g () Bool ((A Bool)) ((A Bool)))",
        "(synth-fun g () Bool ((A Bool)) ((A Bool ((and (Variable Bool) A)))))",
        "(check-synth x)",
    ] {
        refused(5, commands, commands);
    }
    refused(5, "foo", "foo");
    refused(5, "(check-synth)", "(check-synth)");
    let early = "(set-logic BV)(declare-var x Bool) ";
    assert_eq!(answer(early, TRUE, &[], 0), in_script(5, early.len()));
    assert_eq!(answer("(check-synth)", TRUE, &[], 0), in_script(5, 0));
}

#[test]
fn what_is_not_carried_is_6() {
    for commands in [
        "(oracle-assume () () true n)",
        "(declare-sort S 0)",
        "(set-logic LIA)",
        "(synth-fun g () Bool)",
        "(constraint (let ((x true)) x))",
        "(constraint (! true))",
        "(constraint (forall ((x Bool)) x))",
        "(constraint (= #x00 (_ bv 8)))",
        "(declare-var x (_ FloatingPoint 8 24))",
        "(check-synth (exists))",
    ] {
        refused(6, commands, commands);
    }
    refused(6, "(constraint \"x\")", "\"x\"");
    refused(6, "(constraint |x|)", "|x|");
}

#[test]
fn names_are_7() {
    refused(7, "(declare-var and Bool)", "and");
    refused(7, "(declare-var set-option Bool)", "set-option");
    refused(7, "(declare-var x Int)", "Int");
    refused(7, "(define-fun g () Bool f)", "f)\n(check");
    refused(
        7,
        "(declare-var x Bool)(define-fun g () Bool x)",
        "x)\n(check",
    );
    refused(7, "(define-fun g ((x Bool)) Bool (g x))", "g x))");
    refused(7, "(constraint A)", "A)\n(check");
}

#[test]
fn sorts_are_8() {
    refused(8, "(declare-var x (_ BitVec 0))", "(_");
    refused(8, "(constraint 5)", "5");
    refused(8, "(constraint #x00)", "#x00");
    refused(8, "(constraint and)", "and");
    refused(8, "(constraint (and true))", "(and");
    refused(8, "(constraint (f true))", "(f");
    refused(8, "(constraint (= #x00 #x0))", "(=");
    refused(8, "(constraint (not (bvult true #x00)))", "(bvult");
    refused(8, "(constraint (= #x00 ((_ extract 8 1) #x00)))", "((_");
    refused(8, "(constraint (= #x00 (_ extract 7 0)))", "(_");
    refused(
        8,
        "(constraint (= #x00 (concat #x00000000 #x000000000)))",
        "(concat",
    );
    refused(8, "(constraint (= #x00 (ite true #x00 true)))", "(ite");
    refused(8, "(constraint (= #x00 (ite #b1 #x00 #x00)))", "(ite");
    refused(8, "(define-fun g () Bool #b1)", "#b1");
    refused(8, "(constraint (and #x00 (not 5)))", "5");
}

#[test]
fn grammars_are_9() {
    let start = "(synth-fun g ((x Bool)) Bool ";
    let cases = [
        ("() ())", ") ())"),
        ("((B Bool)) ())", "))\n(check"),
        (
            "((B (_ BitVec 8))) ((B (_ BitVec 8) (#x00))))",
            "B (_ BitVec 8))) ((",
        ),
        ("((B Bool)) ((C Bool (true))))", "C Bool"),
        ("((B Bool)) ((B (_ BitVec 8) (#x00))))", "B (_"),
        ("((B Bool)) ((B Bool ())))", "))))\n(check"),
        ("((B Bool)) ((B Bool (true #x00))))", "#x00"),
        (
            "((B Bool)) ((B Bool ((Variable (_ BitVec 8))))))",
            "(Variable",
        ),
        ("((B Bool)) ((B Bool (true)) (C Bool (true))))", "C Bool"),
        ("((B Bool) (C Bool)) ((B Bool (true))))", "))\n(check"),
    ];
    for (grammar, part) in cases {
        refused(9, &format!("{start}{grammar}"), part);
    }
}

#[test]
fn within_a_command_6_precedes_5_then_4_7_8_and_9() {
    let arguments = "(a Bool)(b Bool)(c Bool)(d Bool)(e Bool)(g Bool)(h Bool)(i Bool)";
    let mut faults = vec![
        (6, "(let ((q true)) q)", "(synth-fun k"),
        (5, "(true)", "(synth-fun k"),
        (4, "(Constant (_ BitVec 65))", "65"),
        (7, "unseen", "unseen"),
        (8, "5", "5"),
        (9, "#x00", "#x00"),
    ];
    while let Some((number, _, part)) = faults.first().copied() {
        let rules: Vec<&str> = faults.iter().rev().map(|fault| fault.1).collect();
        let rules = rules.join(" ");
        refused(
            number,
            &format!("(synth-fun k ({arguments}) Bool ((B Bool)) ((B Bool ({rules}))))"),
            part,
        );
        faults.remove(0);
    }
}

#[test]
fn fail_is_10_and_infeasible_11() {
    assert_eq!(answer(TWO, " fail ;", &[], 0), (10, 1, 0, 0, 0));
    assert_eq!(answer(TWO, "infeasible", &[], 0), (11, 1, 0, 0, 0));
    assert_eq!(answer(TWO, "fail fail", &[], 0), in_response(5, 0));
    assert_eq!(answer(TWO, "(fail)", &[], 0), in_response(5, 1));
}

#[test]
fn a_header_that_differs_is_12() {
    response_refused(12, "()", ")");
    response_refused(12, "((define-fun f () Bool true))", ")");
    response_refused(12, "((define-fun h () Bool true))", "h");
    response_refused(12, "((define-fun f ((x Bool)) Bool true))", "(x");
    response_refused(12, "((define-fun f () (_ BitVec 8) #x00))", "(_");
    let f = "(define-fun f () Bool true)";
    response_refused(
        12,
        &format!("({f}(define-fun g () (_ BitVec 8) #x00))"),
        ") (_",
    );
    let g = "(define-fun g ((x (_ BitVec 9))) (_ BitVec 8) #x00)";
    response_refused(12, &format!("({f}{g})"), "9");
    let g = "(define-fun g ((x (_ BitVec 8))) (_ BitVec 8) x)";
    response_refused(12, &format!("({f}{g}{f})"), "(define-fun f");
}

#[test]
fn a_response_has_the_faults_of_words_and_commands_too() {
    response_refused(2, "(00)", "00");
    response_refused(3, "())", ")");
    response_refused(
        6,
        "((define-fun f () Bool (let ((a true)) a)))",
        "(define-fun",
    );
    response_refused(6, "(error \"no\")", "\"no\"");
    response_refused(5, "((foo))", "(foo");
    response_refused(5, "((define-fun f))", "(define-fun");
    response_refused(7, "((define-fun f () Bool A))", "A");
    response_refused(7, "((define-fun f () Bool g))", "g");
    response_refused(8, "((define-fun f () Bool (not #x00)))", "(not");
    response_refused(8, "((define-fun f () Bool #x00))", "#x00");
    let comment = "; nothing";
    assert_eq!(answer(TWO, comment, &[], 0), in_response(5, comment.len()));
}

#[test]
fn no_derivation_is_13() {
    for (f, g, part, function) in [
        ("(not true)", "x", "(not true)", 0),
        ("false", "(bvneg x)", "false", 0),
        ("true", "(bvneg x)", "(bvneg x)", 1),
        ("d", "(bvnot #x00)", "(bvnot", 1),
    ] {
        let response = bodies(f, g);
        let place = last(&response, part) as u64;
        assert_eq!(answer(TWO, &response, &[], 0), (13, 1, place, function, 0));
    }
}

#[test]
fn a_false_constraint_is_14_and_an_ended_budget_15() {
    let script = script_with(
        "(declare-var x (_ BitVec 8))(constraint (bvult x #x80))(constraint (distinct x #x03))",
    );
    assert_eq!(answer(&script, TRUE, &[1, 2, 3, 4], 99), (14, 2, 2, 1, 18));
    assert_eq!(
        answer(&script, TRUE, &[1, 2, 128, 3], 99),
        (14, 2, 2, 0, 15)
    );
    assert_eq!(answer(&script, TRUE, &[1, 2, 3, 4], 17), (15, 2, 2, 1, 15));
    assert_eq!(answer(&script, TRUE, &[1, 2, 3, 4], 2), (15, 2, 0, 0, 0));
}

#[test]
fn points_are_16() {
    let script = script_with("(declare-var p Bool)(declare-var x (_ BitVec 8))(constraint false)");
    assert_eq!(answer(&script, TRUE, &[0, 255, 2], 99), (16, 2, 3, 0, 0));
    assert_eq!(answer(&script, TRUE, &[0, 255, 2, 0], 99), (16, 2, 2, 0, 0));
    assert_eq!(answer(&script, TRUE, &[0, 256, 2, 0], 99), (16, 2, 1, 0, 0));
    assert_eq!(answer(&script_with(""), TRUE, &[0], 99), (16, 2, 1, 0, 0));
}
