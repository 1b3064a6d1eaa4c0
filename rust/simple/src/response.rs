//! The response: 10 and 11, then its commands, "each `define-fun` being shape and limits, header 12, then 7 and 8".

use crate::commands::{define_fun, not_carried, DefineFun};
use crate::script::{names_of, Script};
use crate::terms::{body_fault, unknown_name};
use crate::tree::{trees, Tree};
use crate::{words, Fault};

/// "response 8,192 and 2,048".
pub const MOST_WORDS: usize = 2_048;

/// The bodies of the synthesized functions in script order, or the response's first fault.
pub fn read(text: &[u8], script: &Script) -> Result<Vec<Tree>, Fault> {
    let trees = trees(words::read(text, MOST_WORDS)?);
    if let [only] = &trees[..] {
        match only.symbol() {
            Some("fail") => return Err(Fault::new(10, 0)),
            Some("infeasible") => return Err(Fault::new(11, 0)),
            _ => {}
        }
    }
    let (items, close) = match trees.first() {
        None => return Err(Fault::new(5, text.len())),
        Some(Tree::Leaf(word)) => return Err(Fault::new(5, word.start)),
        Some(Tree::List { items, close, .. }) => (items, *close),
    };
    let mut bodies = Vec::new();
    for item in items {
        match first_fault(item, bodies.len(), script) {
            Some(fault) => return Err(fault),
            None => bodies.push(define_fun(item).expect("a define-fun").body.clone()),
        }
    }
    if bodies.len() < script.synthesized.len() {
        return Err(Fault::new(12, close));
    }
    match trees.get(1) {
        Some(more) => Err(Fault::new(5, more.start())),
        None => Ok(bodies),
    }
}

/// The first fault of the item that stands for the function of an index: 6, 5, 4, then 12, then 7 and 8.
fn first_fault(item: &Tree, index: usize, script: &Script) -> Option<Fault> {
    if !is_define_fun(item) {
        return Some(Fault::new(5, item.start()));
    }
    if let Some(place) = not_carried(item, false) {
        return Some(Fault::new(6, place));
    }
    let Some(definition) = define_fun(item) else {
        return Some(Fault::new(5, item.start()));
    };
    if let Some(place) = definition.past_limit().into_iter().min() {
        return Some(Fault::new(4, place));
    }
    if let Some(place) = header_fault(item, &definition, index, script) {
        return Some(Fault::new(12, place));
    }
    if let Some(place) = name_fault(&definition, index, script) {
        return Some(Fault::new(7, place));
    }
    if let Some(place) = sort_fault(&definition, index, script) {
        return Some(Fault::new(8, place));
    }
    None
}

/// "another list in it is 5": whether an item is a list headed by `define-fun`.
fn is_define_fun(item: &Tree) -> bool {
    let head = item.items().and_then(|items| items.first());
    head.and_then(Tree::symbol) == Some("define-fun")
}

/// 12: "its first word differing; ... one too many: its bracket".
fn header_fault(
    item: &Tree,
    definition: &DefineFun,
    index: usize,
    script: &Script,
) -> Option<usize> {
    let Some(function) = script.synthesized.get(index) else {
        return Some(item.start());
    };
    let words = definition.header.words().into_iter();
    let mut pairs = words.zip(&function.header);
    let differing = pairs.find(|((_, given), declared)| given != declared);
    differing.map(|((place, _), _)| place)
}

/// 7: the least place of a name that the body doesn't see.
fn name_fault(definition: &DefineFun, index: usize, script: &Script) -> Option<usize> {
    let function = &script.synthesized[index];
    let seen = script.seen_by_function(&function.arguments, function.definitions_before);
    unknown_name(definition.body, &names_of(&seen))
}

/// 8: the least place of a sort fault in the body, or the body's first word if its sort is another.
fn sort_fault(definition: &DefineFun, index: usize, script: &Script) -> Option<usize> {
    let function = &script.synthesized[index];
    let seen = script.seen_by_function(&function.arguments, function.definitions_before);
    body_fault(definition.body, function.sort, &seen)
}
