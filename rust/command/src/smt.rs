//! The question that points cannot settle, for an SMT solver: is a constraint false at some point where the assumptions hold? Its text is outside the proof.

use crate::pieces::{pieces, Piece};
use simple::grammar::Sorted;
use simple::operators::{operator, Sort};
use simple::script::Script;
use simple::tree::{joined, Tree};
use std::fmt::Write;

/// Names that a script may have and SMT-LIB or a solver knows otherwise.
const KNOWN: [&str; 56] = [
    "BINARY",
    "DECIMAL",
    "HEXADECIMAL",
    "NUMERAL",
    "STRING",
    "as",
    "match",
    "par",
    "assert",
    "check-sat",
    "check-sat-assuming",
    "declare-const",
    "declare-fun",
    "define-const",
    "define-fun-rec",
    "define-funs-rec",
    "echo",
    "exit",
    "get-assertions",
    "get-assignment",
    "get-info",
    "get-model",
    "get-option",
    "get-proof",
    "get-unsat-assumptions",
    "get-unsat-core",
    "get-value",
    "pop",
    "push",
    "reset",
    "reset-assertions",
    "Int",
    "Real",
    "Array",
    "String",
    "RegLan",
    "RoundingMode",
    "Float16",
    "Float32",
    "Float64",
    "Float128",
    "select",
    "store",
    "abs",
    "div",
    "mod",
    "if",
    "iff",
    "implies",
    "repeat",
    "zero_extend",
    "sign_extend",
    "rotate_left",
    "rotate_right",
    "int2bv",
    "nat2bv",
];

/// The question in SMT-LIB 2: a model is a point at which all assumptions hold and a constraint is false, and `unsat` says that there is none.
pub fn question(script: &Script, bodies: &[Tree]) -> String {
    let assumed = match script.assumptions.len() {
        0 => "",
        1 => "the assumption holds and ",
        _ => "the assumptions hold and ",
    };
    let mut text = format!(
        "; A model is a point at which {assumed}a constraint of the script is false with the bodies of the response; unsat says that there is none.\n\
         (set-option :produce-models true)\n(set-logic QF_BV)\n",
    );
    let declared = |one: &Sorted| format!("(declare-fun {} () {})\n", name(&one.name), one.sort);
    text.extend(script.variables.iter().map(declared));
    let defined = script.definitions.iter();
    text.extend(defined.map(|one| definition(&one.name, &one.arguments, one.sort, &one.body)));
    let given = script.synthesized.iter().zip(bodies);
    text.extend(given.map(|(one, body)| definition(&one.name, &one.arguments, one.sort, body)));
    let assumptions = script.assumptions.iter();
    text.extend(assumptions.map(|one| format!("(assert {})\n", term(&one.term))));
    let constraints = script.constraints.iter();
    let negated: Vec<String> = constraints
        .map(|one| format!("(not {})", term(&one.term)))
        .collect();
    let _ = match &negated[..] {
        [] => writeln!(text, "(assert false)"),
        [only] => writeln!(text, "(assert {only})"),
        _ => writeln!(text, "(assert (or\n  {}))", negated.join("\n  ")),
    };
    text += "(check-sat)\n";
    let names: Vec<String> = script.variables.iter().map(|one| name(&one.name)).collect();
    if !names.is_empty() {
        let _ = writeln!(text, "(get-value ({}))", names.join(" "));
    }
    text
}

/// A function with its body.
fn definition(own: &str, arguments: &[Sorted], sort: Sort, body: &Tree) -> String {
    let arguments = arguments
        .iter()
        .map(|one| format!("({} {})", name(&one.name), one.sort));
    let arguments: Vec<String> = arguments.collect();
    format!(
        "(define-fun {} ({}) {sort} {})\n",
        name(own),
        arguments.join(" "),
        term(body)
    )
}

/// A name as SMT-LIB may have it: quoted and longer where it is known otherwise.
fn name(own: &str) -> String {
    match own.starts_with(['@', '.']) || own.starts_with("bv") || KNOWN.contains(&own) {
        true => format!("|{own} of the script|"),
        false => own.to_string(),
    }
}

/// A term with its names as SMT-LIB may have them.
fn term(term: &Tree) -> String {
    let word = |piece: Piece| match piece.value.is_some() || operator(&piece.text).is_some() {
        true => piece.text,
        false => name(&piece.text),
    };
    let words: Vec<String> = pieces(term).into_iter().map(word).collect();
    joined(words.iter().map(String::as_str))
}

#[cfg(test)]
mod tests {
    use super::*;

    #[test]
    fn the_question_of_a_script() {
        let script = "(set-logic BV)(declare-var as Bool)(define-fun bvid ((x Bool)) Bool x)
            (synth-fun f ((x Bool)) Bool ((B Bool)) ((B Bool ((Variable Bool)))))
            (define-fun bv5 () (_ BitVec 8) (_ bv5 8))(constraint (= bv5 (_ bv5 8) #x05))
            (constraint (= (f as) (bvid as)))(constraint (=> as (f as)))
            (constraint (bvsle (bvsdiv bv5 #x80) (bvashr bv5 #x01)))(check-synth)";
        let script = simple::script::read(script.as_bytes()).expect("a sound script");
        let bodies = simple::response::read(b"((define-fun f ((x Bool)) Bool x))", &script);
        let question = question(&script, &bodies.expect("a sound response"));
        let lines: Vec<&str> = question.lines().skip(3).collect();
        assert_eq!(
            lines,
            [
                "(declare-fun |as of the script| () Bool)",
                "(define-fun |bvid of the script| ((x Bool)) Bool x)",
                "(define-fun |bv5 of the script| () (_ BitVec 8) (_ bv5 8))",
                "(define-fun f ((x Bool)) Bool x)",
                "(assert (or",
                "  (not (= |bv5 of the script| (_ bv5 8) #x05))",
                "  (not (= (f |as of the script|) (|bvid of the script| |as of the script|)))",
                "  (not (=> |as of the script| (f |as of the script|)))",
                "  (not (bvsle (bvsdiv |bv5 of the script| #x80) (bvashr |bv5 of the script| #x01)))))",
                "(check-sat)",
                "(get-value (|as of the script|))",
            ]
        );
    }

    #[test]
    fn assumptions_stand_before_the_constraints() {
        let script = "(set-logic BV)(declare-var p Bool)(synth-fun f ((x Bool)) Bool ((B Bool)) ((B Bool (x))))
            (constraint (f p))(assume (f p))(assume (not (not p)))(check-synth)";
        let script = simple::script::read(script.as_bytes()).expect("a sound script");
        let bodies = simple::response::read(b"((define-fun f ((x Bool)) Bool x))", &script);
        let question = question(&script, &bodies.expect("a sound response"));
        let first = "; A model is a point at which the assumptions hold and a constraint of the script is false ";
        assert!(question.starts_with(first));
        let lines: Vec<&str> = question.lines().skip(5).collect();
        let asserted = [
            "(assert (f p))",
            "(assert (not (not p)))",
            "(assert (not (f p)))",
        ];
        assert_eq!(lines[..3], asserted);
    }
}
