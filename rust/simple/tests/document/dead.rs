//! "A non-terminal is refused exactly if it derives no term".

use crate::{answer, in_script, TRUE};
use simple::commands::{command, Command};
use simple::generate::{crowded, mutated, valid, Case};
use simple::grammar::{Form, Search};
use simple::script::{dead_at, Script, Synthesized};
use simple::tree::{trees, Tree};
use simple::{read, script, words};

/// A script with a function of these arguments whose grammar has these two parts.
fn script_of(arguments: &str, grammar: &str) -> String {
    format!("(set-logic BV)(synth-fun f ({arguments}) Bool {grammar})(check-synth)")
}

/// Holds a grammar to 9 at the first occurrence of a part.
fn dead(arguments: &str, grammar: &str, part: &str) {
    let script = script_of(arguments, grammar);
    let place = script.find(part).expect("the part");
    let found = answer(&script, TRUE, &[], 0);
    assert_eq!(found, in_script(9, place), "{grammar}");
}

/// Holds a grammar to being read.
fn passes(arguments: &str, grammar: &str) {
    let script = script_of(arguments, grammar);
    let response = format!("((define-fun f ({arguments}) Bool true))");
    let own = read(script.as_bytes(), response.as_bytes());
    assert_eq!(own.number, 0, "{grammar}");
}

#[test]
fn rings_without_a_way_out_are_9() {
    dead(
        "",
        "((A Bool) (B Bool)) ((A Bool (B)) (B Bool (A)))",
        "A Bool)",
    );
    dead(
        "",
        "((A Bool) (B Bool)) ((A Bool (true)) (B Bool ((not B))))",
        "B Bool)",
    );
    dead(
        "",
        "((A Bool) (B Bool) (C Bool)) ((A Bool (true B)) (B Bool (C)) (C Bool ((and A B))))",
        "B Bool)",
    );
    passes("", "((A Bool) (B Bool)) ((A Bool (B)) (B Bool (A true)))");
    passes(
        "",
        "((A Bool) (B Bool) (C Bool)) ((A Bool ((and B C))) (B Bool (C)) (C Bool (true (not A))))",
    );
}

#[test]
fn a_variable_counts_by_an_argument_of_its_sort() {
    let grammar = "((A Bool)) ((A Bool ((Variable Bool))))";
    dead("", grammar, "A Bool)");
    dead("(x (_ BitVec 8))", grammar, "A Bool)");
    passes("(x (_ BitVec 8)) (p Bool)", grammar);
    passes("", "((A Bool)) ((A Bool ((Constant Bool))))");
}

#[test]
fn the_other_causes_come_first() {
    let dead_a = "((A Bool) (B Bool)) ((A Bool (A)) ";
    dead("", &format!("{dead_a}(B Bool (true #x00)))"), "#x00");
    dead("", &format!("{dead_a}(C Bool (true)))"), "C Bool");
    dead("", &format!("{dead_a})"), "))(check");
    dead("", &format!("{dead_a}(B Bool ()))"), "))))(check");
}

#[test]
fn terms_of_any_size_count() {
    let pairs: String = (0..16).map(|index| format!("(A{index} Bool) ")).collect();
    let doubled = |index| format!("(A{index} Bool ((and A{0} A{0}))) ", index + 1);
    let groups: String = (0..15).map(doubled).collect();
    passes("", &format!("({pairs}) ({groups}(A15 Bool (true)))"));
    dead(
        "",
        &format!("({pairs}) ({groups}(A15 Bool (A0)))"),
        "A0 Bool)",
    );
}

/// Some term that a non-terminal derives within so many rules one within another, by its words.
fn some_term(function: &Synthesized, nonterminal: usize, depth: usize) -> Option<String> {
    let grammar = &function.grammar;
    let rules = grammar.rules.iter();
    let mut own = rules.filter(|rule| rule.nonterminal == nonterminal);
    own.find_map(|rule| match &rule.form {
        Form::Constant(sort) => Some(match sort.to_string().as_str() {
            "Bool" => "true".to_string(),
            _ => format!("#b{}", "0".repeat(sort.greatest().count_ones() as usize)),
        }),
        Form::Variable(sort) => {
            let mut arguments = function.arguments.iter();
            let fitting = arguments.find(|one| one.sort == *sort);
            fitting.map(|one| one.name.clone())
        }
        Form::Term(term) => filled(function, term, depth.checked_sub(1)?),
    })
}

/// A rule's term with each non-terminal replaced by some term that it derives.
fn filled(function: &Synthesized, term: &Tree, depth: usize) -> Option<String> {
    if let Some(nonterminal) = function.grammar.nonterminal(term) {
        return some_term(function, nonterminal, depth);
    }
    match (term.items(), simple::operands(term)) {
        (Some([head, ..]), operands @ [_, ..]) => {
            let operands = operands.iter().map(|one| filled(function, one, depth));
            let operands: Vec<String> = operands.collect::<Option<_>>()?;
            Some(format!("({head} {})", operands.join(" ")))
        }
        _ => Some(term.to_string()),
    }
}

/// The tree of a text.
fn tree(text: &str) -> Tree {
    let words = words::read(text.as_bytes(), 1 << 20).expect("sound words");
    trees(words).swap_remove(0)
}

/// Holds every non-terminal of a script that passes to some term that it derives, by the search for derivations.
fn assert_fruitful(script: &Script) {
    for function in &script.synthesized {
        for nonterminal in 0..function.grammar.nonterminals.len() {
            let mut depths = 1..=17;
            let term = depths.find_map(|depth| some_term(function, nonterminal, depth));
            let term = tree(&term.expect("some term"));
            let search = Search::new(&function.grammar, &function.arguments, &term);
            assert!(search.has(nonterminal, &term), "{term}");
        }
    }
}

#[test]
fn sound_scripts_have_no_dead_non_terminal() {
    let mut leaning = 0;
    for case in (0..400).map(valid) {
        let script = script::read(&case.script).expect("a sound script");
        assert_fruitful(&script);
        leaning += usize::from(script.synthesized.iter().any(|function| {
            let alone = |index| some_term(function, index, 1).is_some();
            !(0..function.grammar.nonterminals.len()).all(alone)
        }));
    }
    assert!(leaning > 40, "{leaning}");
}

/// Whether a non-terminal of a case is refused because it derives no term.
fn is_dead(case: &Case) -> bool {
    let own = read(&case.script, &case.response);
    if own.number != 9 {
        return false;
    }
    let words = words::read(&case.script, script::MOST_WORDS).expect("sound words");
    let place = own.place as usize;
    let holds = |tree: &&Tree| (tree.start()..tree.end()).contains(&place);
    let trees = trees(words);
    let found = trees.iter().find(holds).and_then(command);
    matches!(found, Some(Command::SynthFun(synth)) if dead_at(&synth, place).is_some())
}

#[test]
fn mutations_make_dead_non_terminals() {
    let counts = [mutated, crowded].map(|make| (0..1_000).map(make).filter(is_dead).count());
    assert!(counts[0] > 20 && counts[1] > 3, "{counts:?}");
}
