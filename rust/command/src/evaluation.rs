//! Values of terms, to say what each side of a false equation is, and how they are shown. They are the simple checker's; the verdict is the proved one's, and
//! nothing here takes part in it.

use simple::eval::{named_values, Functions, Value};
use simple::operands;
use simple::script::Script;
use simple::tree::Tree;

/// A term that costs more units has no value here.
const MOST_UNITS: u128 = 10_000_000;
/// The operators to which a bit vector is a whole number with a sign.
const SIGNED: [&str; 8] = [
    "bvsdiv", "bvsrem", "bvsmod", "bvashr", "bvslt", "bvsle", "bvsgt", "bvsge",
];

/// The value of a term of a constraint at a point; none where it takes too long.
pub fn value(script: &Script, bodies: &[Tree], term: &Tree, numbers: &[u64]) -> Option<Value> {
    let functions = Functions::new(script, bodies);
    let names: Vec<&str> = script
        .variables
        .iter()
        .map(|one| one.name.as_str())
        .collect();
    let short = functions.cost(term, &names) <= MOST_UNITS;
    short.then(|| functions.value(term, &named_values(&script.variables, numbers)))
}

/// The first two neighbours of a false equation whose values differ at a point, with the values; none where these take too long.
pub fn differing<'a>(
    script: &Script,
    bodies: &[Tree],
    equation: &'a Tree,
    numbers: &[u64],
) -> Option<[(&'a Tree, Value); 2]> {
    let [head, sides @ ..] = equation.items()? else {
        return None;
    };
    if head.symbol() != Some("=") {
        return None;
    }
    let valued = |side: &'a Tree| Some((side, value(script, bodies, side, numbers)?));
    let valued = sides.iter().map(valued).collect::<Option<Vec<_>>>()?;
    let mut neighbours = valued.windows(2).map(|two| [two[0], two[1]]);
    neighbours.find(|[left, right]| left.1 != right.1)
}

/// Whether a term has a signed operator in it.
pub fn is_signed(term: &Tree) -> bool {
    let head = term.items().and_then(<[Tree]>::first);
    let head = head.and_then(Tree::symbol);
    head.is_some_and(|head| SIGNED.contains(&head)) || operands(term).iter().any(is_signed)
}

/// The whole number with a sign that a bit vector stands for; none for a Bool.
pub fn whole(value: Value) -> Option<i64> {
    match value {
        Value::Bool(_) => None,
        Value::Bits { width, bits } => Some((bits << (64 - width)) as i64 >> (64 - width)),
    }
}

/// A value, and beside it, where signs matter, the whole number that it stands for.
pub fn shown(value: Value, signed: bool) -> String {
    match whole(value).filter(|_| signed) {
        Some(number) => format!("{value} (signed {number})"),
        None => value.to_string(),
    }
}

#[cfg(test)]
mod tests {
    use super::*;
    use simple::tree::trees;
    use simple::{response, script, words};

    #[test]
    fn a_term_that_takes_too_long_has_no_value() {
        let mut text = "(set-logic BV)(define-fun d0 ((x Bool)) Bool (not x))".to_string();
        for k in 1..30 {
            let last = k - 1;
            text += &format!("(define-fun d{k} ((x Bool)) Bool (d{last} (d{last} x)))");
        }
        text += "(synth-fun f () Bool ((B Bool)) ((B Bool (true))))(declare-var x Bool)(constraint (d29 x))(constraint (d9 f))(check-synth)";
        let script = script::read(text.as_bytes()).expect("a sound script");
        let bodies = response::read(b"((define-fun f () Bool true))", &script);
        let bodies = bodies.expect("a sound response");
        let value = |index: usize| value(&script, &bodies, &script.constraints[index].term, &[0]);
        assert_eq!((value(0), value(1)), (None, Some(Value::Bool(true))));
    }

    #[test]
    fn the_first_neighbours_that_differ() {
        let text = "(set-logic BV)(declare-var x (_ BitVec 8))(synth-fun f () Bool ((B Bool)) ((B Bool (true))))
            (constraint (= x #x05 (_ bv5 8) (bvadd x #b00000001) #x07))(constraint (= x (_ bv5 8)))(constraint f)(check-synth)";
        let script = script::read(text.as_bytes()).expect("a sound script");
        let said = |index: usize| {
            let sides = differing(&script, &[], &script.constraints[index].term, &[5]);
            sides.map(|sides| sides.map(|(side, value)| format!("{side} = {value}")))
        };
        let expected = ["(_ bv5 8) = 0x05", "(bvadd x #b00000001) = 0x06"];
        assert_eq!(said(0), Some(expected.map(str::to_string)));
        assert_eq!((said(1), said(2)), (None, None));
    }

    #[test]
    fn values_are_shown_with_their_sign() {
        let bits = |width: u32, bits: u64| Value::Bits { width, bits };
        for (value, expected) in [
            (bits(8, 0xf9), "0xf9 (signed -7)"),
            (bits(8, 0x7f), "0x7f (signed 127)"),
            (bits(1, 1), "0x1 (signed -1)"),
            (bits(9, 0x100), "0x100 (signed -256)"),
            (bits(64, u64::MAX), "0xffffffffffffffff (signed -1)"),
            (Value::Bool(true), "true"),
        ] {
            assert_eq!(shown(value, true), expected);
            assert_eq!(shown(value, false), value.to_string());
        }
        let least = whole(bits(64, 1 << 63));
        assert_eq!(least, Some(i64::MIN));
    }

    #[test]
    fn terms_with_signed_operators() {
        for (term, expected) in [
            ("(bvslt x y)", true),
            ("(=> p (= x (bvadd y (bvsdiv x y))))", true),
            ("(= x (bvudiv (f x) y))", false),
            ("(bvule x y)", false),
            ("((_ extract 3 0) (bvashr x y))", true),
            ("(= x (_ bv5 8))", false),
            ("x", false),
        ] {
            let words = words::read(term.as_bytes(), usize::MAX).expect("sound words");
            assert_eq!(is_signed(&trees(words)[0]), expected, "{term}");
        }
    }
}
