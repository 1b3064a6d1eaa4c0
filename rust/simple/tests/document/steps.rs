//! Steps for the controller: the lists of bodies, what the call answers where there is none, and the runner; decided readings by their numbers.

use crate::conjunction;
use simple::eval::Value;
use simple::steps::{run, steps, Cause, Refusal, MOST_VALUES, STEPS_LENGTH};
use simple::{check, Answer, AREA_LENGTH};

/// A script with a `define-fun`, and two functions with weighted rules of an argument x of 8 bits and one p of Bool.
const SCRIPT: &str = "(set-logic BV)(set-feature :weights true)(declare-var v (_ BitVec 8))(define-fun d ((y Bool)) Bool (not y))
    (synth-fun f ((x (_ BitVec 8)) (p Bool)) (_ BitVec 8) ((W (_ BitVec 8)) (B Bool)) ((W (_ BitVec 8) ((Variable (_ BitVec 8)) (Constant (_ BitVec 8))
        (! (bvadd W W) :weight 5) (bvsdiv W W) ((_ extract 7 0) W) (ite B W W))) (B Bool ((Variable Bool) (Constant Bool) (and B B B) (bvult W W)))))
    (synth-fun g ((x (_ BitVec 8)) (p Bool)) Bool ((B Bool)) ((B Bool ((! p :weight 7) true false (and B B B) (and B B) (d B) (not B)))))
    (constraint (= (f v true) (f v true)))(check-synth)";

/// A response to it with these two bodies.
fn response(f: &str, g: &str) -> String {
    let arguments = "((x (_ BitVec 8)) (p Bool))";
    format!("((define-fun f {arguments} (_ BitVec 8) {f})(define-fun g {arguments} Bool {g}))")
}

/// What the call gives for a function and an area of so many numbers: the answer, how many steps, and the area, which is lent with 7 everywhere.
fn listed(response: &str, function: u64, length: usize) -> (Answer, usize, Vec<u64>) {
    let mut area = vec![7; length];
    let (script, response) = (SCRIPT.as_bytes(), response.as_bytes());
    let (answer, count) = steps(script, response, &[200], 1_000, function, &mut area);
    (answer, count, area)
}

/// Holds a body of a function to its list: the answer is the checker's own, and what is behind the list is as it was lent.
fn holds(f: &str, g: &str, function: u64, list: &[u64]) {
    let response = response(f, g);
    let (answer, count, area) = listed(&response, function, STEPS_LENGTH);
    let (script, bytes) = (SCRIPT.as_bytes(), response.as_bytes());
    let own = check(script, bytes, &[200], 1_000, &mut [0; AREA_LENGTH]);
    assert_eq!((answer, answer.number), (own, 0), "{f} {g}");
    assert_eq!(4 * count, list.len(), "{f} {g}");
    let (written, rest) = area.split_at(list.len());
    assert_eq!(written, list, "{f} {g}");
    assert!(rest.iter().all(|&number| number == 7));
}

/// Holds a call to a refusal: its number and place, no steps, and an area as it was lent.
fn refuses(response: &str, function: u64, length: usize, number: u8, place: u64) {
    let (answer, count, area) = listed(response, function, length);
    assert_eq!((answer.number, answer.place, count), (number, place, 0));
    assert!(area.iter().all(|&number| number == 7));
    if number > 16 {
        let expected = Answer {
            number,
            text: 3,
            place,
            ..Answer::default()
        };
        assert_eq!(answer, expected);
    }
}

#[test]
fn lists_of_bodies() {
    let sum = [1, 0, 0, 0, 2, 15, 8, 0, 3, 13, 2, 0];
    holds("(bvadd x #x0F)", "p", 0, &sum);
    holds("(bvadd x #b00001111)", "p", 0, &sum);
    holds("((_ extract 7 0) x)", "p", 0, &[1, 0, 0, 0, 3, 22, 7, 0]);
    holds(
        "(bvsdiv x x)",
        "p",
        0,
        &[1, 0, 0, 0, 1, 0, 0, 0, 3, 23, 2, 0],
    );
    holds("x", "true", 1, &[2, 1, 0, 0]);
    holds("x", "false", 1, &[2, 0, 0, 0]);
    let three = [1, 1, 0, 0, 1, 1, 0, 0, 1, 1, 0, 0, 3, 1, 3, 0];
    holds("x", "(and p p p)", 1, &three);
    holds("(_ bv15 8)", "p", 0, &[2, 15, 8, 0]);
    holds("x", "p", 1, &[1, 1, 0, 0]);
    let chosen = [
        1, 0, 0, 0, 2, 1, 8, 0, 3, 20, 2, 0, 1, 0, 0, 0, 2, 2, 8, 0, 3, 7, 3, 0,
    ];
    holds("(ite (bvult x #x01) x #x02)", "p", 0, &chosen);
}

#[test]
fn totals_beside_a_list() {
    let body = response("(bvadd x (bvadd x x))", "(and p p)");
    let (answer, count, _) = listed(&body, 0, STEPS_LENGTH);
    assert_eq!((answer.number, count), (0, 5));
    assert_eq!(answer.weights, [10, 14, 0, 0, 0, 0, 0, 0]);
}

#[test]
fn bodies_without_a_list() {
    let defined = response("x", "(and p (d p))");
    refuses(&defined, 1, STEPS_LENGTH, 18, 1);
    holds("x", "(and p (d p))", 0, &[1, 0, 0, 0]);
    let sound = response("x", "p");
    for function in [2, 5, 8, 1 << 32, u64::MAX] {
        refuses(&sound, function, STEPS_LENGTH, 18, function);
    }
    for length in [0, 1_023, 1_025] {
        refuses(&sound, 0, length, 17, length as u64);
        refuses(&sound, 5, length, 17, length as u64);
        refuses("(", 5, length, 17, length as u64);
    }
    let underived = response("(bvudiv x x)", "p");
    let place = underived.find("(bvudiv").expect("the body") as u64;
    refuses(&underived, 5, STEPS_LENGTH, 13, place);
    refuses("fail", 5, STEPS_LENGTH, 10, 0);
}

#[test]
fn a_body_of_256_nodes() {
    let body = format!("(and {} (not true))", conjunction("p", 127));
    let (answer, count, area) = listed(&response("x", &body), 1, STEPS_LENGTH);
    assert_eq!((answer.number, count), (0, 256));
    assert_eq!(area[1_020..], [3, 1, 2, 0]);
    let value = run(&[8, 0], &[0, 1], &area);
    assert_eq!(value, Ok(Value::Bool(false)));
}

/// Holds a list without arguments to a value.
fn gives(list: &[u64], sort: u64, number: u64) {
    let sort = simple::steps::sort(sort).expect("a sort");
    assert_eq!(
        run(&[], &[], list),
        Ok(Value::new(sort, number)),
        "{list:?}"
    );
}

/// Holds a list on an argument 200 of 8 bits and one 1 of Bool to a refusal at a step.
fn stops(list: &[u64], place: u64, cause: Cause) {
    let refusal = Refusal {
        number: 19,
        place,
        cause,
    };
    assert_eq!(run(&[8, 0], &[200, 1], list), Err(refusal), "{list:?}");
}

/// That operands have these sorts, and should have others.
fn wrongly(sorts: &[u64]) -> Cause {
    let sorts = sorts.iter().map(|&width| simple::steps::sort(width));
    Cause::WronglySorted(sorts.map(|sort| sort.expect("a sort")).collect())
}

#[test]
fn lists_that_run() {
    gives(&[2, 1, 0, 0], 0, 1);
    gives(&[2, 15, 8, 0], 8, 15);
    gives(&[2, 16, 8, 0, 3, 22, 4, 4], 1, 1);
    gives(&[2, 1, 32, 0, 2, 2, 32, 0, 3, 21, 2, 0], 64, (1 << 32) + 2);
    gives(&[2, 7, 8, 0, 2, 9, 8, 0, 3, 14, 2, 0], 8, 254);
    gives(&[2, u64::MAX, 64, 0], 64, u64::MAX);
    let mut all = [2, 1, 0, 0].repeat(MOST_VALUES);
    all.extend([3, 1, 256, 0]);
    gives(&all, 0, 1);
    let mut long = vec![2, 1, 8, 0];
    long.extend([3, 8, 1, 0].repeat(MOST_VALUES));
    gives(&long, 8, 1);
    let nine: Vec<u64> = (1..=9).collect();
    let ninth = Value::new(simple::operators::Sort::BitVec(8), 9);
    assert_eq!(run(&[8; 9], &nine, &[1, 8, 0, 0]), Ok(ninth));
}

#[test]
fn steps_that_are_refused() {
    stops(&[2, 1, 8, 0, 4, 0, 0, 0], 1, Cause::Malformed);
    stops(&[2, 1, 8, 1], 0, Cause::Malformed);
    stops(&[1, 0, 1, 0], 0, Cause::Malformed);
    stops(&[1, 0, 0, 0, 3, 8, 1, 1], 1, Cause::Malformed);
    stops(&[2, 1, 8, 0, 2], 1, Cause::CutShort);
    stops(&[2, 1, 8], 0, Cause::CutShort);
    stops(&[2, 256, 8, 0], 0, Cause::NoConstant);
    stops(&[2, 2, 0, 0], 0, Cause::NoConstant);
    stops(&[2, 1, 65, 0], 0, Cause::NoConstant);
    stops(&[1, 2, 0, 0], 0, Cause::NoArgument);
    stops(&[1, u64::MAX, 0, 0], 0, Cause::NoArgument);
    stops(&[2, 1, 0, 0, 2, 1, 0, 0, 3, 0, 2, 0], 2, Cause::Operands);
    stops(&[2, 1, 8, 0, 2, 1, 8, 0, 3, 34, 2, 0], 2, Cause::NoOperator);
    stops(
        &[2, 1, 0, 0, 2, 1, 0, 0, 3, 1, u64::MAX, 0],
        2,
        Cause::TooFew(2),
    );
    stops(&[2, 1, 8, 0, 3, 13, 2, 0], 1, Cause::TooFew(1));
    stops(&[3, 22, 7, 0], 0, Cause::TooFew(0));
    stops(
        &[2, 1, 40, 0, 2, 1, 25, 0, 3, 21, 2, 0],
        2,
        wrongly(&[40, 25]),
    );
    stops(&[2, 1, 8, 0, 3, 22, 3, 4], 1, wrongly(&[8]));
    stops(&[2, 1, 8, 0, 3, 22, 8, 0], 1, wrongly(&[8]));
    stops(&[2, 1, 0, 0, 2, 1, 8, 0, 3, 13, 2, 0], 2, wrongly(&[0, 8]));
    stops(&[2, 1, 0, 0].repeat(257), 256, Cause::Full);
    stops(&[2, 1, 8, 0, 2, 1, 8, 0], 2, Cause::End(2));
    stops(&[], 0, Cause::End(0));
}

#[test]
fn arguments_that_are_refused() {
    for (sorts, arguments, place, cause) in [
        (&[65, 8][..], &[1][..], 1, Cause::Count),
        (&[8], &[], 0, Cause::Count),
        (&[8, 65], &[1, 1], 1, Cause::NoSort),
        (&[u64::MAX], &[0], 0, Cause::NoSort),
        (&[0], &[2], 0, Cause::Range),
        (&[0, 8], &[1, 256], 1, Cause::Range),
    ] {
        let refusal = Refusal {
            number: 20,
            place,
            cause,
        };
        assert_eq!(run(sorts, arguments, &[9]), Err(refusal), "{sorts:?}");
    }
}
