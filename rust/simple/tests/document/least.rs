//! Request E13: "The derivation shown must now be of least total weight among all of any length, then with fewest rules, then with the least rule numbers at the
//! first difference."

use crate::{answer_and_area, shown};
use simple::eval::literal_value;
use simple::generate::{tangled, valid, Case};
use simple::grammar::{derivation, Form, Grammar, Sorted};
use simple::terms::{literal_sort, operands};
use simple::tree::Tree;
use simple::{response, script};

/// The most derivations of one part that are listed.
const MOST: usize = 3_000;

/// A rule number list with its total weight.
type Listed = (u64, usize, Vec<u16>);

/// All derivations, by trying each rule at each place in which no non-terminal is used twice at one place; none where they are too many.
struct All<'a> {
    grammar: &'a Grammar,
    arguments: &'a [Sorted],
}

impl All<'_> {
    /// Those of a node from a non-terminal, where some were used at its place before.
    fn of(&self, nonterminal: usize, node: &Tree, used: &[usize]) -> Option<Vec<Listed>> {
        let mut all = Vec::new();
        if used.contains(&nonterminal) {
            return Some(all);
        }
        let used = [used, &[nonterminal]].concat();
        for (number, rule) in self.grammar.rules.iter().enumerate() {
            if rule.nonterminal == nonterminal {
                let parts = self.of_form(&rule.form, node, &used)?;
                all.extend(parts.into_iter().map(|(weight, count, rules)| {
                    let rules = [vec![number as u16], rules].concat();
                    (weight + rule.weight, count + 1, rules)
                }));
            }
        }
        (all.len() <= MOST).then_some(all)
    }

    /// Those of a node from the form of a rule.
    fn of_form(&self, form: &Form, node: &Tree, used: &[usize]) -> Option<Vec<Listed>> {
        let fits = match form {
            Form::Constant(sort) => literal_sort(node) == Some(*sort),
            Form::Variable(sort) => self.arguments.iter().any(|argument| {
                argument.sort == *sort && node.symbol() == Some(argument.name.as_str())
            }),
            Form::Term(term) => return self.of_term(term, node, used),
        };
        Some(vec![(0, 0, Vec::new()); usize::from(fits)])
    }

    /// Those of a node from a term with non-terminals, operand by operand.
    fn of_term(&self, term: &Tree, node: &Tree, used: &[usize]) -> Option<Vec<Listed>> {
        if let Some(inner) = self.grammar.nonterminal(term) {
            return self.of(inner, node, used);
        }
        let nothing = (0, 0, Vec::new());
        let (own, given) = (operands(term), operands(node));
        if own.is_empty() || own.len() != given.len() {
            let same = match literal_value(term) {
                Some(value) => literal_value(node) == Some(value),
                None => term.same_words(node),
            };
            return Some(vec![nothing; usize::from(same)]);
        }
        let same_head = match (term.items(), node.items()) {
            (Some(term), Some(node)) => term[0].same_words(&node[0]),
            _ => false,
        };
        let mut all = vec![nothing; usize::from(same_head)];
        for (own, given) in own.iter().zip(given) {
            let more = self.of_term(own, given, &[])?;
            let together = all.iter().flat_map(|(weight, count, rules)| {
                more.iter().map(move |(more_weight, more_count, more)| {
                    let rules = [&rules[..], more].concat();
                    (weight + more_weight, count + more_count, rules)
                })
            });
            all = together.take(MOST + 1).collect();
            if all.len() > MOST {
                return None;
            }
        }
        Some(all)
    }
}

/// Holds the derivation of each body of a case to the least of all, and answers how many bodies have several, where they can all be listed.
fn held(case: &Case, seed: u64) -> usize {
    let script = script::read(&case.script).expect("a sound script");
    let bodies = response::read(&case.response, &script).expect("a sound response");
    let mut several = 0;
    for (function, body) in script.synthesized.iter().zip(&bodies) {
        let (grammar, arguments) = (&function.grammar, &function.arguments[..]);
        let Some(all) = (All { grammar, arguments }).of(0, body, &[]) else {
            continue;
        };
        several += usize::from(all.len() > 1);
        let found = derivation(grammar, arguments, body).expect("a derivation");
        let found = (found.weight, found.rules.len(), found.rules);
        assert_eq!(all.into_iter().min(), Some(found), "seed {seed}");
    }
    several
}

#[test]
fn of_all_derivations_the_least_is_found() {
    let several: usize = (0..1_500).map(|seed| held(&tangled(seed), seed)).sum();
    assert!(several > 700, "{several}");
    let several: usize = (0..300).map(|seed| held(&valid(seed), seed)).sum();
    assert!(several > 20, "{several}");
}

/// The list shown for a body of the function f without arguments.
fn list_of(grammar: &str, body: &str) -> Vec<u16> {
    let script = format!("(set-logic BV)(synth-fun f () Bool {grammar})(check-synth)");
    let response = format!("((define-fun f () Bool {body}))");
    let (answer, area) = answer_and_area(&script, &response, &[], 0);
    assert_eq!(answer.0, 0, "{grammar} {body}");
    shown(&area, 0)
}

#[test]
fn fewest_rules_then_least_numbers() {
    let ways = "((A Bool)(B Bool)(C Bool)) ((A Bool (B C)) (B Bool (C true)) (C Bool (true)))";
    assert_eq!(list_of(ways, "true"), [0, 3]);
    let ways = "((A Bool)(B Bool)(C Bool)) ((A Bool (C B)) (B Bool (C true)) (C Bool (true)))";
    assert_eq!(list_of(ways, "true"), [0, 4]);
    let ways = "((A Bool)) ((A Bool ((and A A) true true (not A))))";
    assert_eq!(list_of(ways, "(and true true)"), [0, 1, 1]);
    let ways = "((A Bool)(B Bool)) ((A Bool (B (and B A) (and A B))) (B Bool (A true)))";
    assert_eq!(list_of(ways, "(and true true)"), [1, 4, 0, 4]);
}
