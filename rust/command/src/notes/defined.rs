//! Answer 18: the `define-fun` that a body uses.

use super::Hint;
use crate::run::Given;
use simple::operands;
use simple::tree::Tree;

/// The first use of a `define-fun` in the body of a function.
pub fn hint(given: &Given, function: u64) -> Option<Hint> {
    let index = usize::try_from(function).ok()?;
    let arguments = &given.read.synthesized.get(index)?.arguments;
    let is_defined = |name: &str| {
        let defined = given.read.definitions.iter().any(|one| one.name == name);
        defined && arguments.iter().all(|one| one.name != name)
    };
    let name = first_name(given.bodies.get(index)?, &is_defined)?;
    Some(Hint::at(
        name,
        "this is a define-fun: write what it stands for, with rules of the grammar that have no define-fun",
    ))
}

/// The first name or head of a term, in text order, that is one of some names.
fn first_name<'a>(term: &'a Tree, wanted: &impl Fn(&str) -> bool) -> Option<&'a Tree> {
    let head = term.items().map_or(Some(term), <[Tree]>::first)?;
    if head.symbol().is_some_and(wanted) {
        return Some(head);
    }
    operands(term)
        .iter()
        .find_map(|operand| first_name(operand, wanted))
}
