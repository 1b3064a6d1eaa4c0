//! "Each declared name's record must hold the place of its declaration, and answer 7 returns it as second number; 0 for unknown or reserved."

use crate::{answer, in_script, last, script_with, TRUE};
use simple::generate::{crowded, mutated, valid, Case};
use simple::script::Script;
use simple::{read, script, word, Answer};
use std::collections::HashSet;

/// Holds a script with these commands to 7 at the last occurrence of a part, for a name that the first occurrence of another part declares.
fn taken(commands: &str, part: &str, declared: &str) {
    let script = script_with(commands);
    let declared = script.find(declared).expect("the declaration") as u64;
    let (number, text, place, _, units) = in_script(7, last(&script, part));
    let expected = (number, text, place, declared, units);
    assert_eq!(answer(&script, TRUE, &[], 0), expected, "{commands}");
}

/// Holds a script with these commands to 7 at the last occurrence of a part, for a name that is not taken.
fn not_taken(commands: &str, part: &str) {
    let script = script_with(commands);
    let expected = in_script(7, last(&script, part));
    assert_eq!(answer(&script, TRUE, &[], 0), expected, "{commands}");
}

#[test]
fn a_name_like_one_of_an_earlier_command() {
    let variable = "(declare-var v Bool)";
    for (new, part) in [
        ("(declare-var v Bool)", "v Bool)\n"),
        ("(define-fun v () Bool true)", "v ()"),
        (
            "(define-fun d ((a Bool) (v Bool)) Bool a)",
            "v Bool)) Bool a",
        ),
        (
            "(synth-fun v () Bool ((B Bool)) ((B Bool (true))))",
            "v () Bool ((B",
        ),
        (
            "(synth-fun g ((v Bool)) Bool ((B Bool)) ((B Bool (true))))",
            "v Bool)) Bool ((B",
        ),
        (
            "(synth-fun g () Bool ((v Bool)) ((v Bool (true))))",
            "v Bool)) ((v",
        ),
    ] {
        taken(&format!("{variable}{new}"), part, "v Bool)");
    }
    taken("(declare-var f Bool)", "f Bool)\n", "f () Bool ((A");
    taken(
        "(define-fun d ((a Bool)) Bool a)(define-fun d () Bool true)",
        "d () Bool true",
        "d ((a",
    );
}

#[test]
fn a_name_like_one_of_its_own_command() {
    taken(
        "(define-fun g ((g Bool)) Bool g)",
        "g Bool)) Bool g",
        "g ((g",
    );
    taken(
        "(define-fun g ((b Bool) (b Bool) (b Bool)) Bool b)",
        "b Bool) (b Bool)) Bool b",
        "b Bool) (b Bool) (b",
    );
    taken(
        "(synth-fun g ((b Bool)) Bool ((B Bool) (b Bool)) ((B Bool (b)) (b Bool (true))))",
        "b Bool)) ((B",
        "b Bool)) Bool",
    );
    taken(
        "(synth-fun g () Bool ((B Bool) (C Bool) (B Bool)) ((B Bool (true))))",
        "B Bool)) ((B",
        "B Bool) (C",
    );
}

#[test]
fn the_first_fault_of_a_name_counts() {
    let variable = "(declare-var v Bool)";
    taken(
        &format!("{variable}(define-fun v ((v Bool) (and Bool)) Int w)"),
        "v ((v",
        "v Bool)",
    );
    not_taken(
        &format!("{variable}(define-fun d ((a Int) (v Bool)) Bool a)"),
        "Int",
    );
    not_taken(
        &format!("{variable}(define-fun d ((and Bool) (v Bool)) Bool true)"),
        "and",
    );
}

#[test]
fn unknown_and_reserved_names_have_no_declaration() {
    not_taken("(declare-var check-synth Bool)", "check-synth Bool");
    not_taken("(constraint q)", "q)");
    not_taken("(declare-var v Bool)(define-fun d () Bool v)", "v)\n");
    not_taken("(constraint v)(declare-var v Bool)", "v)(declare");
    not_taken("(declare-var v Bool)(declare-var w v)", "v)\n");
    not_taken("(define-fun d ((a Bool)) Bool a)(constraint a)", "a)\n");
    not_taken("(constraint A)", "A)\n");
    let script = script_with("(declare-var v Bool)");
    let response = "((define-fun f () Bool v))";
    assert_eq!(answer(&script, response, &[], 0), (7, 1, 23, 0, 0));
}

#[test]
fn a_name_whose_scope_has_ended_is_free() {
    for commands in [
        "(define-fun d ((a Bool)) Bool a)(declare-var a Bool)",
        "(define-fun d ((a Bool)) Bool a)(define-fun e ((a Bool)) Bool a)",
        "(declare-var A Bool)",
    ] {
        let read = read(script_with(commands).as_bytes(), TRUE.as_bytes());
        assert_eq!(read.number, 0, "{commands}");
    }
    taken(
        "(define-fun d ((a Bool)) Bool a)(declare-var a (_ BitVec 8))(declare-var a Bool)",
        "a Bool)\n",
        "a (_",
    );
}

/// The names that a script has in scope at its end, with their places.
fn in_scope(script: &Script) -> Vec<(&str, usize)> {
    let variables = script.variables.iter();
    let variables = variables.map(|one| (one.name.as_str(), one.place));
    let definitions = script.definitions.iter();
    let definitions = definitions.map(|one| (one.name.as_str(), one.place));
    let synthesized = script.synthesized.iter();
    let synthesized = synthesized.map(|one| (one.name.as_str(), one.place));
    variables.chain(definitions).chain(synthesized).collect()
}

/// The word at a place of a text.
fn word_at(text: &[u8], at: usize) -> &[u8] {
    &text[at..at + word(text, at)]
}

#[test]
fn names_in_scope_have_distinct_spellings_and_their_places() {
    for case in (0..300).map(valid) {
        let read = script::read(&case.script).expect("a sound script");
        let names = in_scope(&read);
        let spellings: HashSet<&str> = names.iter().map(|(name, _)| *name).collect();
        assert_eq!(spellings.len(), names.len());
        for (name, place) in names {
            assert_eq!(word_at(&case.script, place), name.as_bytes());
        }
        for one in &read.synthesized {
            for own in one.arguments.iter().chain(&one.grammar.nonterminals) {
                assert!(own.place > one.place);
                assert_eq!(word_at(&case.script, own.place), own.name.as_bytes());
            }
        }
    }
}

/// How often a name is taken in the cases that a maker makes, each held to an earlier word of the same spelling.
fn count_taken(make: fn(u64) -> Case) -> usize {
    let is_taken = |case: &Case| {
        let Answer {
            number,
            text,
            place,
            second,
            ..
        } = read(&case.script, &case.response);
        if number != 7 || second == 0 {
            return false;
        }
        assert!(text == 0 && second < place);
        let [one, other] = [place, second].map(|at| word_at(&case.script, at as usize));
        assert_eq!(one, other);
        true
    };
    (0..1_000).map(make).filter(is_taken).count()
}

#[test]
fn mutations_take_names() {
    let counts = [mutated, crowded].map(count_taken);
    assert!(counts.iter().all(|&count| count > 25), "{counts:?}");
}
