//! "Settled on the bench" and "Slips we expect".

use crate::{answer, answer_and_area, conjunction, holds, last, script_with, shown, TRUE};

/// The swap case, after document 000 example 3.
const SWAP: &str = "(set-logic BV)
(synth-fun f ((x (_ BitVec 32))) (_ BitVec 32)
  ((BV32 (_ BitVec 32)) (BV16 (_ BitVec 16)))
  ((BV32 (_ BitVec 32) (#x00000000 #x00000001 #xFFFFFFFF x
     (bvand BV32 BV32) (bvor BV32 BV32) (bvnot BV32) (concat BV16 BV16)))
   (BV16 (_ BitVec 16) (#x0000 #x0001 #xFFFF
     (bvand BV16 BV16) (bvor BV16 BV16) (bvnot BV16)
     ((_ extract 31 16) BV32) ((_ extract 15 0) BV32)))))
(constraint (= (f #x0782ECAD) #xECAD0000))
(constraint (= (f #xFFFF008E) #x008E0000))
(constraint (= (f #x00000000) #x00000000))
(check-synth)";

/// A response to the swap case.
fn swap(body: &str) -> String {
    format!("((define-fun f ((x (_ BitVec 32))) (_ BitVec 32) {body}))")
}

#[test]
fn the_swap_case_is_accepted_by_budget_24() {
    let response = swap("(concat ((_ extract 15 0) x) #x0000)");
    let (answer, area) = answer_and_area(SWAP, &response, &[], 24);
    assert_eq!(answer, (0, 3, 0, 1, 24));
    assert_eq!(shown(&area, 0), [7, 15, 3, 8]);
}

#[test]
fn the_swap_case_ends_the_budget_23() {
    let response = swap("(concat ((_ extract 15 0) x) #x0000)");
    let (answer, area) = answer_and_area(SWAP, &response, &[], 23);
    assert_eq!(answer, (15, 2, 0, 2, 16));
    assert_eq!(shown(&area, 0), [7, 15, 3, 8]);
}

#[test]
fn another_swap_is_false_or_not_derived() {
    let false_at_once = swap("(concat ((_ extract 31 16) x) #x0000)");
    assert_eq!(answer(SWAP, &false_at_once, &[], 24), (14, 2, 0, 0, 8));
    let masked = swap("(bvand (concat ((_ extract 15 0) x) #x0000) #xFFFFFFFF)");
    assert_eq!(answer(SWAP, &masked, &[], 99), (0, 3, 0, 1, 30));
    let other_literal = swap("(concat ((_ extract 15 0) x) #x0002)");
    let place = last(&other_literal, "(concat") as u64;
    assert_eq!(answer(SWAP, &other_literal, &[], 24), (13, 1, place, 0, 0));
}

#[test]
fn a_ring_is_followed_and_left() {
    let script = "(set-logic BV)(synth-fun f ((x Bool)) Bool ((A Bool) (B Bool))
        ((A Bool (B)) (B Bool (A x))))(check-synth)";
    let response = "((define-fun f ((x Bool)) Bool x))";
    let (answer, area) = answer_and_area(script, response, &[], 0);
    assert_eq!(answer, (0, 3, 0, 1, 0));
    assert_eq!(shown(&area, 0), [0, 2]);
}

#[test]
fn a_long_chain_is_followed_to_its_end() {
    let script = "(set-logic BV)(synth-fun f ((x Bool)) Bool ((A Bool) (B Bool) (C Bool) (D Bool))
        ((A Bool (A B)) (B Bool (A C)) (C Bool (B D)) (D Bool (C x))))(check-synth)";
    let response = "((define-fun f ((x Bool)) Bool x))";
    let (answer, area) = answer_and_area(script, response, &[], 0);
    assert_eq!(answer, (0, 3, 0, 1, 0));
    assert_eq!(shown(&area, 0), [1, 3, 5, 7]);
}

#[test]
fn bodies_that_apply_the_last_twice_cost_3_9_21() {
    let names = "(define-fun d0 ((x (_ BitVec 8))) (_ BitVec 8) (bvadd x x))
        (define-fun d1 ((x (_ BitVec 8))) (_ BitVec 8) (d0 (d0 x)))
        (define-fun d2 ((x (_ BitVec 8))) (_ BitVec 8) (d1 (d1 x)))";
    for (name, cost) in [("d0", 3), ("d1", 9), ("d2", 21)] {
        let script = script_with(&format!("{names}(constraint (= ({name} #x00) #x00))"));
        // The constraint adds `=`, the application, its literal and the other literal.
        let units = cost + 4;
        assert_eq!(answer(&script, TRUE, &[], units), (0, 3, 0, 1, units));
        assert_eq!(answer(&script, TRUE, &[], units - 1), (15, 2, 0, 0, 0));
    }
}

#[test]
fn the_table_of_8_bit_values_holds() {
    let table = [
        ("(bvudiv #x0F #x00)", "#xFF"),
        ("(bvurem #x0F #x00)", "#x0F"),
        ("(bvshl #x01 #x08)", "#x00"),
        ("(bvlshr #x80 #x07)", "#x01"),
        ("(bvneg #x80)", "#x80"),
        ("(bvmul #x10 #x10)", "#x00"),
        ("(bvsub #x00 #x01)", "#xFF"),
        ("(concat #xA #xB)", "#xAB"),
        ("((_ extract 7 4) #xAB)", "#xA"),
    ];
    holds(&table);
}

#[test]
fn further_values_hold() {
    let table = [
        ("(bvudiv #x0F #x04)", "#x03"),
        ("(bvurem #x0F #x04)", "#x03"),
        ("(bvshl #x81 #x07)", "#x80"),
        ("(bvshl #x81 #xFF)", "#x00"),
        ("(bvlshr #x80 #x08)", "#x00"),
        ("(bvneg #x00)", "#x00"),
        ("(bvneg #x01)", "#xff"),
        ("(bvnot #x0F)", "#xF0"),
        ("(bvand #x0F #x3C)", "#x0C"),
        ("(bvor #x0F #x3C)", "#x3F"),
        ("(bvxor #x0F #x3C)", "#x33"),
        ("(bvadd #xFF #x02)", "#x01"),
        ("(bvmul #xFF #xFF)", "#x01"),
        (
            "(bvmul #xFFFFFFFFFFFFFFFF #xFFFFFFFFFFFFFFFF)",
            "#x0000000000000001",
        ),
        (
            "(bvadd #xFFFFFFFFFFFFFFFF #x0000000000000001)",
            "#x0000000000000000",
        ),
        (
            "(bvsub #x0000000000000000 #x0000000000000001)",
            "#xFFFFFFFFFFFFFFFF",
        ),
        ("(bvneg #x8000000000000000)", "#x8000000000000000"),
        ("(bvnot #b0)", "#b1"),
        ("(bvudiv #b1 #b0)", "#b1"),
        (
            "(bvshl #x0000000000000001 #x000000000000003F)",
            "#x8000000000000000",
        ),
        (
            "(bvshl #x0000000000000001 #x0000000000000040)",
            "#x0000000000000000",
        ),
        ("(concat #xFFFFFFFF #x00000000)", "#xFFFFFFFF00000000"),
        (
            "((_ extract 63 0) #xFEDCBA9876543210)",
            "#xFEDCBA9876543210",
        ),
        ("((_ extract 63 63) #xFEDCBA9876543210)", "#b1"),
        ("((_ extract 0 0) #xFEDCBA9876543210)", "#b0"),
        ("(bvult #x01 #x02)", "true"),
        ("(bvult #x02 #x02)", "false"),
        ("(not true)", "false"),
        ("(and true false)", "false"),
        ("(or true false)", "true"),
        ("(xor true true)", "false"),
        ("(=> true false)", "false"),
        ("(=> false false)", "true"),
        ("(= #x01 #x02)", "false"),
        ("(distinct true false)", "true"),
        ("(ite true #x01 #x02)", "#x01"),
        ("(ite false #x01 #x02)", "#x02"),
    ];
    holds(&table);
}

#[test]
fn ite_charges_both_branches() {
    let script = script_with("(constraint (ite true true (and (not true) false)))");
    assert_eq!(answer(&script, TRUE, &[], 7), (0, 3, 0, 1, 7));
    assert_eq!(answer(&script, TRUE, &[], 6), (15, 2, 0, 0, 0));
}

#[test]
fn a_rule_is_not_taken_by_sort_alone() {
    let script = "(set-logic BV)(synth-fun f ((x Bool) (y Bool)) Bool ((A Bool))
        ((A Bool (x (and A A)))))(check-synth)";
    let response = "((define-fun f ((x Bool) (y Bool)) Bool (and x y)))";
    let place = last(response, "(and") as u64;
    assert_eq!(answer(script, response, &[], 0), (13, 1, place, 0, 0));
}

#[test]
fn a_constant_rule_keeps_its_width() {
    let script = "(set-logic BV)(synth-fun f () (_ BitVec 8) ((A (_ BitVec 8)) (B (_ BitVec 4)))
        ((A (_ BitVec 8) ((Constant (_ BitVec 8)) (concat B B))) (B (_ BitVec 4) ((Constant (_ BitVec 4))))))
        (check-synth)";
    let cases: [(&str, &[u16]); 4] = [
        ("#xAB", &[0]),
        ("#b10101011", &[0]),
        ("(concat #xA #b1011)", &[1, 2, 2]),
        ("(concat #b101 #b01011)", &[]),
    ];
    for (body, expected) in cases {
        let response = format!("((define-fun f () (_ BitVec 8) {body}))");
        let (answer, area) = answer_and_area(script, &response, &[], 0);
        assert_eq!(answer.0, if expected.is_empty() { 13 } else { 0 });
        assert_eq!(shown(&area, 0), expected);
    }
}

#[test]
fn a_cost_past_every_budget_is_not_begun() {
    let mut commands = String::from("(define-fun d0 () Bool true)");
    for index in 1..32 {
        let body = conjunction(&format!("d{}", index - 1), 24);
        commands += &format!("(define-fun d{index} () Bool {body})");
    }
    let script = script_with(&format!("{commands}(constraint d31)"));
    assert_eq!(answer(&script, TRUE, &[], u64::MAX), (15, 2, 0, 0, 0));
}

#[test]
fn a_variable_rule_keeps_its_sort() {
    let script = "(set-logic BV)(synth-fun f ((p Bool) (x (_ BitVec 8)) (y (_ BitVec 9))) Bool
        ((A Bool) (B (_ BitVec 8)))
        ((A Bool ((= B B) (bvult ((_ extract 3 0) B) #x0))) (B (_ BitVec 8) ((Variable (_ BitVec 8))))))
        (check-synth)";
    let cases: [(&str, &[u16]); 5] = [
        ("(= x x)", &[0, 2, 2]),
        ("(= p p)", &[]),
        ("(= x #x00)", &[]),
        ("(bvult ((_ extract 3 0) x) #x0)", &[1, 2]),
        ("(bvult ((_ extract 3 0) y) #x0)", &[]),
    ];
    for (body, expected) in cases {
        let header = "(p Bool) (x (_ BitVec 8)) (y (_ BitVec 9))";
        let response = format!("((define-fun f ({header}) Bool {body}))");
        let (answer, area) = answer_and_area(script, &response, &[], 0);
        assert_eq!(answer.0, if expected.is_empty() { 13 } else { 0 });
        assert_eq!(shown(&area, 0), expected);
    }
}
