//! Sorts, names and terms: their shape, their limits, the names they see and their sorts.

use crate::constants::constant;
use crate::eval::{literal_value, Value};
use crate::operators::{operator, Sort};
use crate::tree::Tree;

/// "n from 1 to 64".
pub const MOST_WIDTH: u32 = 64;
/// "256 nodes (literals, names, applications; no head is one) a body, constraint or rule", and an assumption "under the same rules".
const MOST_NODES: usize = 256;

/// The command words that are carried.
pub const CARRIED_COMMANDS: [&str; 8] = [
    "set-logic",
    "set-feature",
    "declare-var",
    "define-fun",
    "synth-fun",
    "constraint",
    "assume",
    "check-synth",
];

/// "Other 2.1 commands": the other heads of document 000, section 2.9.
pub const OTHER_COMMANDS: [&str; 20] = [
    "chc-constraint",
    "declare-weight",
    "inv-constraint",
    "optimize-synth",
    "oracle-assume",
    "oracle-constraint",
    "declare-oracle-fun",
    "oracle-constraint-io",
    "oracle-constraint-cex",
    "oracle-constraint-membership",
    "oracle-constraint-poswitness",
    "oracle-constraint-negwitness",
    "declare-correctness-oracle",
    "declare-correctness-cex-oracle",
    "declare-datatype",
    "declare-datatypes",
    "declare-sort",
    "define-sort",
    "set-info",
    "set-option",
];

/// The reserved words that are neither operators nor command words.
pub const OTHER_RESERVED: [&str; 11] = [
    "true", "false", "Bool", "BitVec", "_", "!", "let", "exists", "forall", "Constant", "Variable",
];

/// A name that a term sees, with the sorts of its operands and its own.
#[derive(Clone, Debug)]
pub struct Name {
    pub name: String,
    pub operands: Vec<Sort>,
    pub sort: Sort,
}

/// "operators, command words of document 000, `true`, `false`, ... are reserved".
pub fn is_reserved(name: &str) -> bool {
    operator(name).is_some()
        || CARRIED_COMMANDS.contains(&name)
        || OTHER_COMMANDS.contains(&name)
        || OTHER_RESERVED.contains(&name)
}

/// The sort of a literal.
pub fn literal_sort(tree: &Tree) -> Option<Sort> {
    literal_value(tree).map(Value::sort)
}

/// i and j of exactly `(_ extract i j)`.
pub fn extract_indices(tree: &Tree) -> Option<(u32, u32)> {
    match tree.items()? {
        [mark, name, i, j] if mark.symbol() == Some("_") && name.symbol() == Some("extract") => {
            Some((i.numeral()?, j.numeral()?))
        }
        _ => None,
    }
}

/// n of exactly `(_ BitVec n)`, with its tree.
fn bitvec_width(tree: &Tree) -> Option<(u32, &Tree)> {
    match tree.items()? {
        [mark, name, n] if mark.symbol() == Some("_") && name.symbol() == Some("BitVec") => {
            Some((n.numeral()?, n))
        }
        _ => None,
    }
}

/// The shape of a sort: a symbol or `(_ BitVec n)`.
pub fn is_sort(tree: &Tree) -> bool {
    tree.symbol().is_some() || bitvec_width(tree).is_some()
}

/// "(0 is answer 8, above 64 answer 4)": the place of a width above 64.
pub fn width_past_limit(sort: &Tree) -> Option<usize> {
    let (width, numeral) = bitvec_width(sort)?;
    (width > MOST_WIDTH).then(|| numeral.start())
}

/// "another symbol as a sort is 7": the place of such a symbol.
pub fn unknown_sort(sort: &Tree) -> Option<usize> {
    (sort.symbol()? != "Bool").then(|| sort.start())
}

/// "first word of a faulty sort": the place of a sort of width 0.
pub fn faulty_sort(sort: &Tree) -> Option<usize> {
    (bitvec_width(sort)?.0 == 0).then(|| sort.start())
}

/// The sort that a tree of its shape means.
pub fn sort(tree: &Tree) -> Sort {
    bitvec_width(tree).map_or(Sort::Bool, |(width, _)| Sort::BitVec(width))
}

/// The shape of a term; "a term `(_ BitVec n)` or headed by a literal, a numeral, another list or `Constant` or
/// `Variable`" has none, nor has "`(c)` with no operand"; a keyword fits no form of a term.
pub fn is_term(tree: &Tree) -> bool {
    let Some(items) = tree.items() else {
        return tree.keyword().is_none();
    };
    if is_indexed(tree) {
        return true;
    }
    match items {
        [head, operands @ ..] => {
            is_head(head) && !operands.is_empty() && operands.iter().all(is_term)
        }
        [] => false,
    }
}

/// What may head a term: a symbol that is no literal, `_`, `Constant` or `Variable`, or `(_ extract i j)`.
fn is_head(head: &Tree) -> bool {
    match head.symbol() {
        Some(symbol) => !["true", "false", "_", "Constant", "Variable"].contains(&symbol),
        None => extract_indices(head).is_some(),
    }
}

/// Whether a tree is exactly `(_ bvN n)`, which is "one node", or a bare `(_ extract i j)`.
fn is_indexed(tree: &Tree) -> bool {
    constant(tree).is_some() || extract_indices(tree).is_some()
}

/// The operands of an application; a leaf, `(_ bvN n)` and a bare `(_ extract i j)` have none.
pub fn operands(term: &Tree) -> &[Tree] {
    match term.items() {
        Some([_, operands @ ..]) if !is_indexed(term) => operands,
        _ => &[],
    }
}

/// The places of a term's nodes in text order; a numeral is no node.
fn nodes(term: &Tree) -> Vec<usize> {
    let mut places = Vec::new();
    if term.numeral().is_none() {
        places.push(term.start());
    }
    places.extend(operands(term).iter().flat_map(nodes));
    places
}

/// "256 nodes ... a body, constraint or rule": the first word of the node past the limit, or of a constant's words past one.
pub fn term_past_limit(term: &Tree) -> Option<usize> {
    let node = nodes(term).get(MOST_NODES).copied();
    node.into_iter().chain(constant_past_limit(term)).min()
}

/// The first word of a term's constants that is past a limit.
fn constant_past_limit(term: &Tree) -> Option<usize> {
    match constant(term) {
        Some(constant) => constant.past_limit(),
        None => operands(term).iter().find_map(constant_past_limit),
    }
}

/// The least place of a name that is unknown or reserved; "in a term an operator or function without its operands,
/// or any name with a wrong number, is answer 8, another reserved word 7".
pub fn unknown_name(term: &Tree, seen: &[&str]) -> Option<usize> {
    let name = match term.items() {
        None => Some(term),
        Some(_) if is_indexed(term) => None,
        Some(items) => items.first(),
    };
    let unknown = |name: &&Tree| match name.symbol() {
        Some(symbol) => {
            let known = seen.contains(&symbol) || operator(symbol).is_some();
            !known && literal_sort(name).is_none()
        }
        None => false,
    };
    let own = name.filter(unknown).map(|name| name.start());
    let inner = operands(term).iter();
    let inner = inner.filter_map(|operand| unknown_name(operand, seen));
    own.into_iter().chain(inner).min()
}

/// The sort of a term whose names are known, or the least place of "a faulty term whose operands have none".
pub fn sort_of(term: &Tree, seen: &[Name]) -> Result<Sort, usize> {
    if let Some(sort) = literal_sort(term) {
        return Ok(sort);
    }
    let sorts = operands(term).iter().map(|operand| sort_of(operand, seen));
    let sorts = sorts.collect::<Result<Vec<Sort>, usize>>()?;
    application_sort(term, &sorts, seen).ok_or(term.start())
}

/// The sort of a name or application by the sorts of its operands, none if it is at fault: a numeral, a constant not below
/// 2^n, a wrong number of operands, or operands of wrong sorts.
fn application_sort(term: &Tree, sorts: &[Sort], seen: &[Name]) -> Option<Sort> {
    let head = term.items().map_or(term, |items| &items[0]);
    if let Some(part) = extract_indices(head) {
        return operator("extract")?.sort(Some(part), sorts);
    }
    let symbol = head.symbol()?;
    if let Some(operator) = operator(symbol) {
        return operator.sort(None, sorts);
    }
    let name = seen.iter().find(|name| name.name == symbol)?;
    (name.operands == sorts).then_some(name.sort)
}

/// The sort of a body or constraint is wrong: "A body not of its sort or a constraint not Bool is 8 at its first word",
/// else the least fault within it.
pub fn body_fault(body: &Tree, expected: Sort, seen: &[Name]) -> Option<usize> {
    match sort_of(body, seen) {
        Err(place) => Some(place),
        Ok(found) => (found != expected).then(|| body.start()),
    }
}
