//! The judge of the area refuses every list but a derivation.

use simple::{replay, AREA_LENGTH, UNUSED};

/// The ring: A has rule B; B has A, x and, besides, a conjunction, a constant and a variable.
const RING: &[u8] = b"(set-logic BV)(synth-fun f ((x Bool)) Bool ((A Bool) (B Bool))
    ((A Bool (B)) (B Bool (A x (and A B) (Constant Bool) (Variable Bool)))))(check-synth)";

/// An area with these entries from a place on.
fn area(from: usize, entries: &[u16]) -> Vec<u16> {
    let mut area = vec![UNUSED; AREA_LENGTH];
    area[from..from + entries.len()].copy_from_slice(entries);
    area
}

/// Whether the judge takes an area after an answer to the ring with a body.
fn taken(body: &str, number: u8, area: &[u16]) -> bool {
    let response = format!("((define-fun f ((x Bool)) Bool {body}))");
    replay::area_fault(RING, response.as_bytes(), number, area).is_none()
}

#[test]
fn derivations_are_taken() {
    let cases: [(&str, &[u16]); 5] = [
        ("x", &[0, 2]),
        ("x", &[0, 5]),
        ("false", &[0, 4]),
        ("(and x x)", &[0, 3, 0, 2, 2]),
        ("(and x (and true x))", &[0, 3, 0, 5, 3, 0, 4, 2]),
    ];
    for (body, list) in cases {
        for number in [0, 14, 15] {
            assert!(taken(body, number, &area(0, list)), "{body} {list:?}");
        }
        assert!(!taken(body, 13, &area(0, list)));
    }
}

#[test]
fn other_lists_are_refused() {
    let cases: [(&str, &[u16]); 12] = [
        ("x", &[]),
        ("x", &[0]),
        ("x", &[2]),
        ("x", &[0, 2, 2]),
        ("x", &[0, 1, 0, 2]),
        ("x", &[0, 4]),
        ("x", &[0, 3, 0, 2, 2]),
        ("x", &[0, 6]),
        ("true", &[0, 2]),
        ("true", &[0, 5]),
        ("(and x x)", &[0, 3, 2, 2]),
        ("(and x x)", &[0, 3, 0, 2]),
    ];
    for (body, list) in cases {
        assert!(!taken(body, 0, &area(0, list)), "{body} {list:?}");
    }
}

#[test]
fn other_places_are_refused() {
    assert!(!taken("x", 0, &area(1, &[0, 2])));
    assert!(!taken("x", 0, &area(4_096, &[0, 2])));
    assert!(!taken("x", 0, &area(0, &[0, 2, UNUSED, 0])));
    let mut two = area(0, &[0, 2]);
    two[4_096] = 0;
    assert!(!taken("x", 0, &two));
    assert!(!taken("x", 0, &two[1..]));
    assert!(taken("x", 16, &area(0, &[])));
}

#[test]
fn literals_are_judged_by_value_and_width() {
    let script = b"(set-logic BV)(synth-fun f () Bool ((bv15 Bool))
        ((bv15 Bool ((= #x0F #x0F) (and bv15 (= (_ bv15 8) #b00001111))))))(check-synth)";
    let taken = |body: &str, list: &[u16]| {
        let response = format!("((define-fun f () Bool {body}))");
        replay::area_fault(script, response.as_bytes(), 0, &area(0, list)).is_none()
    };
    assert!(taken("(= #x0f (_ bv15 8))", &[0]));
    assert!(taken("(and (= #x0f #x0F) (= #x0F #x0f))", &[1, 0]));
    assert!(!taken("(= #x0f (_ bv14 8))", &[0]));
    assert!(!taken("(= #xf (_ bv15 4))", &[0]));
    assert!(!taken("(= #b000001111 (_ bv15 9))", &[0]));
    assert!(!taken("(and (= #x0f #x0F) (= #x0F #x0f))", &[1, 0, 0]));
}
