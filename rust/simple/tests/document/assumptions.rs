//! Request E1: `assume`, "a Bool term under the same rules as a constraint, up to 32 of them".

use crate::{answer, conjunction, in_response, in_script, last, negated, script_with, Five, TRUE};

/// The function of the readings.
const FUNCTION: &str = "(synth-fun f () Bool ((A Bool)) ((A Bool (true))))";

/// A reading with a variable x: its number, commands, points, budget and answer.
type Reading = (u8, &'static str, &'static [u64], u64, Five);

/// The readings of evaluation with a variable.
const READINGS: [Reading; 8] = [
    (
        1,
        "(constraint false)(assume (distinct x x))",
        &[1],
        100,
        (0, 3, 0, 0, 3),
    ),
    (
        4,
        "(assume (= x #x01))(constraint true)",
        &[1, 2],
        100,
        (0, 3, 0, 1, 7),
    ),
    (
        5,
        "(assume true)(assume (= x x))(constraint true)",
        &[1],
        3,
        (15, 2, 0, 65, 1),
    ),
    (
        7,
        "(assume false)(assume (= x x))",
        &[1],
        100,
        (0, 3, 0, 0, 1),
    ),
    (8, "(assume true)", &[], 100, (0, 3, 0, 0, 0)),
    (
        16,
        "(assume (= x #x01))(constraint (= x #x02))",
        &[1, 2],
        100,
        (14, 2, 0, 0, 6),
    ),
    (
        18,
        "(assume (= x #x01))(constraint true)",
        &[2, 1],
        100,
        (0, 3, 0, 1, 7),
    ),
    (
        19,
        "(assume (= x #x01))(constraint false)",
        &[2, 1],
        100,
        (14, 2, 1, 0, 7),
    ),
];

/// Terms of every fault that a constraint's term can have, and of none.
const TERMS: [&str; 24] = [
    "true",
    "f",
    "(= x x)",
    "(d f p)",
    "",
    "true true",
    "()",
    "(true)",
    "(_ BitVec 8)",
    "(f)",
    "(Constant Bool)",
    "(let ((y true)) y)",
    "(! true)",
    "(_ bv 8)",
    "(= x (_ bv5 65))",
    "later",
    "(later x)",
    "A",
    "(assume true)",
    "5",
    "x",
    "and",
    "(f true)",
    "(bvult x p)",
];

/// The script of a reading with these commands behind a variable x and the function.
fn with_x(commands: &str) -> String {
    format!("(set-logic BV)(declare-var x (_ BitVec 8)){FUNCTION}{commands}(check-synth)")
}

/// The script of a reading with these commands behind the function.
fn without_x(commands: &str) -> String {
    format!("(set-logic BV){FUNCTION}{commands}(check-synth)")
}

/// So many assumptions and constraints that hold.
fn many(assumptions: usize, constraints: usize) -> String {
    "(assume true)".repeat(assumptions) + &"(constraint true)".repeat(constraints)
}

/// Commands after which d31 costs more than every budget.
fn tower() -> String {
    let level = |index: usize| {
        let body = conjunction(&format!("d{}", index - 1), 24);
        format!("(define-fun d{index} () Bool {body})")
    };
    let levels: String = (1..32).map(level).collect();
    format!("(define-fun d0 () Bool true){levels}")
}

/// Holds a script with these commands to a fault at the last occurrence of a part.
fn refused(number: u8, commands: &str, part: &str) {
    let script = script_with(commands);
    let expected = in_script(number, last(&script, part));
    assert_eq!(answer(&script, TRUE, &[], 99), expected, "{commands}");
}

#[test]
fn the_readings_of_evaluation_with_a_variable_hold() {
    for (reading, commands, points, budget, expected) in READINGS {
        let given = answer(&with_x(commands), TRUE, points, budget);
        assert_eq!(given, expected, "E1.{reading}");
    }
}

#[test]
fn the_readings_of_evaluation_without_variables_hold() {
    let skipped = "(assume false)(constraint false)";
    let cases: [(u8, &str, u64, Five); 4] = [
        (3, &many(32, 64), 100, (0, 3, 0, 1, 96)),
        (6, &many(1, 64), 64, (15, 2, 0, 63, 64)),
        (9, skipped, 100, (0, 3, 0, 0, 1)),
        (10, "(assume f)", 100, (0, 3, 0, 1, 2)),
    ];
    for (reading, commands, budget, expected) in cases {
        let given = answer(&without_x(commands), TRUE, &[], budget);
        assert_eq!(given, expected, "E1.{reading}");
    }
}

#[test]
fn the_readings_of_commands_hold() {
    let early = format!("(assume true)(set-logic BV){FUNCTION}(check-synth)");
    let late = without_x("") + "(assume true)";
    let two = "(set-logic BV)(assume true true)";
    let no_bool = "(set-logic BV)(declare-var x (_ BitVec 8))(assume x)";
    let cases: [(&str, &str, Five); 7] = [
        ("E1.2", &without_x(&many(33, 0)), in_script(4, 480)),
        ("E1.11", &early, in_script(5, 0)),
        ("E1.13 and R276", "(set-logic BV)(assume)", in_script(5, 14)),
        ("E1.13", two, in_script(5, 14)),
        ("E1.14", no_bool, in_script(8, 50)),
        ("R30", "(assume true)(set-logic BV)", in_script(5, 0)),
        ("R45", &late, in_script(5, 77)),
    ];
    for (reading, script, expected) in cases {
        assert_eq!(answer(script, TRUE, &[], 100), expected, "{reading}");
    }
    let in_a_response = answer(&without_x(""), "((assume true))", &[], 100);
    assert_eq!(in_a_response, in_response(5, 1), "E1.15");
}

#[test]
fn there_are_up_to_32_apart_from_64_constraints() {
    for (commands, units) in [
        (many(32, 0), 32),
        (many(0, 64) + &many(32, 0), 96),
        (many(16, 32) + &many(16, 32), 96),
    ] {
        let script = script_with(&commands);
        assert_eq!(answer(&script, TRUE, &[], 96), (0, 3, 0, 1, units));
    }
    refused(4, &(many(0, 64) + &many(33, 0)), "(assume");
    refused(4, &(many(16, 64) + &many(17, 0)), "(assume");
    refused(4, &many(32, 65), "(constraint");
    refused(6, &(many(32, 0) + "(assume (let))"), "(assume (let");
    refused(5, &(many(32, 0) + "(assume)"), "(assume)");
    refused(4, &(many(32, 0) + "(assume unknown)"), "(assume unknown");
}

#[test]
fn its_term_has_the_limits_of_a_constraint() {
    let longest = format!("(not {})", conjunction("true", 128));
    let script = script_with(&format!("(assume {longest})(constraint false)"));
    assert_eq!(answer(&script, TRUE, &[], 256), (0, 3, 0, 0, 256));
    let longer = conjunction("true", 129);
    refused(4, &format!("(assume {longer})"), "true");
    let script = script_with(&format!("(assume {})", negated("true", 62)));
    assert_eq!(answer(&script, TRUE, &[], 63), (0, 3, 0, 1, 63));
    let deepest = format!("(assume {})", negated("true", 64));
    refused(4, &deepest, "(not true");
}

#[test]
fn its_term_has_the_faults_of_a_constraint() {
    let commands = "(declare-var x (_ BitVec 8))(declare-var p Bool)
        (define-fun d ((a Bool) (b Bool)) Bool (and a b))";
    for term in TERMS {
        let of = |head: &str| {
            let command = format!("({head} {term})");
            let script = script_with(&format!("{commands}{command}(declare-var later Bool)"));
            let (number, text, place, second, units) = answer(&script, TRUE, &[5, 1, 0], 99);
            let at_command = place as usize == last(&script, &command);
            let from_end = match number == 0 || at_command {
                true => 0,
                false => script.len() as u64 - place,
            };
            (number, text, at_command, from_end, second, units)
        };
        assert_eq!(of("assume"), of("constraint"), "{term}");
    }
}

#[test]
fn it_sees_all_earlier_names_alone() {
    refused(7, "(assume p)(declare-var p Bool)", "p)(declare");
    refused(7, "(assume g)(define-fun g () Bool true)", "g)(define");
    let before = format!("(set-logic BV)(assume f){FUNCTION}(check-synth)");
    let place = last(&before, "f)");
    assert_eq!(answer(&before, TRUE, &[], 99), in_script(7, place));
    let seen = "(declare-var p Bool)(define-fun g ((a Bool)) Bool (not a))(assume (=> p (g f)))";
    let script = script_with(seen);
    assert_eq!(answer(&script, TRUE, &[0, 1, 0], 99), (0, 3, 0, 2, 21));
}

#[test]
fn its_word_is_reserved() {
    for command in [
        "(declare-var assume Bool)",
        "(declare-var x assume)",
        "(define-fun assume () Bool true)",
        "(define-fun g ((assume Bool)) Bool true)",
        "(define-fun g () Bool assume)",
        "(synth-fun g () Bool ((assume Bool)) ((assume Bool (true))))",
        "(constraint assume)",
        "(constraint (assume true))",
        "(assume assume)",
    ] {
        let script = script_with(command);
        let (number, text, place, _, _) = answer(&script, TRUE, &[], 99);
        assert_eq!((number, text), (7, 0), "{command}");
        assert!(script[place as usize..].starts_with("assume"), "{command}");
    }
}

#[test]
fn out_of_place_6_precedes_5() {
    let let_term = "(assume (let ((y true)) y))";
    let early = format!("{let_term}(set-logic BV)");
    assert_eq!(answer(&early, TRUE, &[], 99), in_script(6, 0));
    for (assume, number) in [(let_term, 6), ("(assume 5)", 5), ("(assume)", 5)] {
        let late = without_x("") + assume;
        assert_eq!(answer(&late, TRUE, &[], 99), in_script(number, 77));
    }
}

#[test]
fn a_response_has_none() {
    let script = script_with("");
    for (response, number, part) in [
        ("assume", 5, "assume"),
        ("(assume true)", 5, "assume"),
        ("((assume (let ((y true)) y)))", 5, "(assume"),
        ("((define-fun f () Bool true)(assume true))", 5, "(assume"),
        ("((define-fun f () Bool assume))", 7, "assume"),
        ("((define-fun assume () Bool true))", 12, "assume"),
    ] {
        let expected = in_response(number, last(response, part));
        assert_eq!(answer(&script, response, &[], 99), expected, "{response}");
    }
}

#[test]
fn each_budget_ends_before_the_first_one_that_it_cannot_pay() {
    let script = with_x(
        "(constraint (bvult x #x03))(assume true)(constraint true)(assume (distinct x #x02))",
    );
    let held = |point| [(point, 64, 1), (point, 65, 3), (point, 0, 3), (point, 1, 1)];
    let skipped = [(1, 64, 1), (1, 65, 3)];
    let steps = [&held(0)[..], &skipped, &held(2)].concat();
    let total = steps.iter().map(|step| step.2).sum();
    for budget in 0..total {
        let mut units = 0;
        let mut begun = steps.iter().skip_while(|(_, _, cost)| {
            let paid = units + cost <= budget;
            units += if paid { *cost } else { 0 };
            paid
        });
        let &(point, number, _) = begun.next().expect("one that is not begun");
        let expected = (15, 2, point, number, units);
        assert_eq!(answer(&script, TRUE, &[1, 2, 0], budget), expected);
    }
    for budget in [total, total + 1, u64::MAX] {
        let accepted = (0, 3, 0, 2, total);
        assert_eq!(answer(&script, TRUE, &[1, 2, 0], budget), accepted);
    }
}

#[test]
fn every_number_from_64_to_95_comes_out() {
    let script = script_with(&many(32, 64));
    for budget in 0..32 {
        let ended = (15, 2, 0, 64 + budget, budget);
        assert_eq!(answer(&script, TRUE, &[], budget), ended);
    }
    for budget in 32..96 {
        let ended = (15, 2, 0, budget - 32, budget);
        assert_eq!(answer(&script, TRUE, &[], budget), ended);
    }
}

#[test]
fn a_cost_past_every_budget_is_not_begun() {
    let cases: [(&str, Five); 6] = [
        ("(assume d31)", (15, 2, 0, 64, 0)),
        ("(constraint false)(assume d31)", (15, 2, 0, 64, 0)),
        ("(assume true)(assume d31)", (15, 2, 0, 65, 1)),
        ("(assume false)(assume d31)", (0, 3, 0, 0, 1)),
        ("(assume false)(constraint d31)", (0, 3, 0, 0, 1)),
        ("(assume (and f d1))(constraint d31)", (15, 2, 0, 0, 75)),
    ];
    for (commands, expected) in cases {
        let script = script_with(&format!("{}{commands}", tower()));
        let given = answer(&script, TRUE, &[], u64::MAX);
        assert_eq!(given, expected, "{commands}");
    }
}

#[test]
fn a_false_one_skips_no_other_point() {
    let script = with_x("(constraint (bvult x #x80))(assume (distinct x #xFF))");
    let accepted = (0, 3, 0, 2, 15);
    assert_eq!(
        answer(&script, TRUE, &[255, 1, 255, 2], 99),
        (0, 3, 0, 2, 18)
    );
    assert_eq!(answer(&script, TRUE, &[1, 255, 2], 99), accepted);
    assert_eq!(
        answer(&script, TRUE, &[255, 128, 255], 99),
        (14, 2, 1, 0, 9)
    );
    assert_eq!(answer(&script, TRUE, &[255, 256], 99), (16, 2, 1, 0, 0));
}
