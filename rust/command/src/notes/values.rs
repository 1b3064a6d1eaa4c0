//! Answer 14: the values of the left sides of `=>` and of every application of a synthesized function.

use super::Hint;
use crate::evaluation::{differing, is_signed, shown, value};
use crate::guards::sides;
use crate::run::Given;
use simple::tree::Tree;

/// The values in a constraint at a point; those that cost too much are left out.
pub fn hints(given: &Given, constraint: usize, point: &[u64]) -> Vec<Hint> {
    let Some(constraint) = given.read.constraints.get(constraint) else {
        return Vec::new();
    };
    let mut terms = Vec::new();
    guards(&constraint.term, &mut terms);
    applications(given, &constraint.term, &mut terms);
    let said = differing(&given.read, &given.bodies, &constraint.term, point);
    let said = said.map(|sides| sides.map(|(side, _)| side.start()));
    terms.retain(|term| !said.is_some_and(|said| said.contains(&term.start())));
    let signed = is_signed(&constraint.term);
    let mut hints: Vec<Hint> = Vec::new();
    for term in terms {
        let value = value(&given.read, &given.bodies, term, point);
        let hint = value.map(|value| Hint::general(format!("{term} = {}", shown(value, signed))));
        hints.extend(hint.filter(|hint| !hints.contains(hint)));
    }
    hints
}

/// The left sides of a `=>`, and of those in its right side.
fn guards<'a>(term: &'a Tree, terms: &mut Vec<&'a Tree>) {
    if let Some((lefts, right)) = sides(term) {
        terms.extend(lefts);
        guards(right, terms);
    }
}

/// The applications of synthesized functions in a term, in text order.
fn applications<'a>(given: &Given, term: &'a Tree, terms: &mut Vec<&'a Tree>) {
    let head = term.items().map_or(Some(term), <[Tree]>::first);
    let name = head.and_then(Tree::symbol);
    let mut functions = given.read.synthesized.iter();
    if functions.any(|one| Some(one.name.as_str()) == name) {
        terms.push(term);
    }
    let operands = simple::operands(term).iter();
    operands.for_each(|operand| applications(given, operand, terms));
}
