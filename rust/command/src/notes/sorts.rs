//! Answer 8: how many operands and which sorts were expected, and which were found.

use super::names::seen;
use super::{Cause, Reading};
use crate::answers::counted;
use simple::commands::{command, Command};
use simple::constants::{constant, Constant};
use simple::operands;
use simple::operators::{operator, Operator, Sort, SortRule};
use simple::script::rule_terms;
use simple::terms::{extract_indices, sort, sort_of, Name};
use simple::tree::Tree;

/// The fault of the term or sort at the place.
pub fn cause(reading: &Reading) -> Option<Cause> {
    let tree = reading.faulty?;
    let seen = seen(reading, tree);
    let (terms, expected) = terms(tree);
    let holds = |term: &&Tree| (term.start()..term.end()).contains(&reading.place);
    let Some(term) = terms.into_iter().find(holds) else {
        return Some(Cause::said("a width of 0 is no sort: a width is from 1 to 64"));
    };
    let found = sort_of(term, &seen);
    Some(Cause::said(match (found, expected) {
        (Ok(found), Some(expected)) => format!("this term has the sort {found}, expected is {expected}"),
        _ => fault(part(term, reading.place)?, &seen)?,
    }))
}

/// The terms of a command, and the sort that they are to have where it is one.
fn terms(tree: &Tree) -> (Vec<&Tree>, Option<Sort>) {
    match command(tree) {
        Some(Command::DefineFun(definition)) => (vec![definition.body], Some(sort(definition.header.sort))),
        Some(Command::SynthFun(synth)) => (rule_terms(&synth), None),
        Some(Command::Constraint(term) | Command::Assume(term)) => (vec![term], Some(Sort::Bool)),
        _ => (Vec::new(), None),
    }
}

/// The part of a term that begins at a place.
fn part(term: &Tree, place: usize) -> Option<&Tree> {
    if term.start() == place {
        return Some(term);
    }
    operands(term).iter().find_map(|operand| part(operand, place))
}

/// What is wrong with a term whose operands have no fault.
fn fault(term: &Tree, seen: &[Name]) -> Option<String> {
    if term.numeral().is_some() {
        return Some(format!("the numeral `{term}` is no literal: write it as `(_ bv{term} n)`, n its width, or with `#x` or `#b` in all digits of its width"));
    }
    if let Some(constant) = constant(term) {
        return Some(constant_fault(&constant));
    }
    let sorts: Vec<Sort> = operands(term).iter().filter_map(|one| sort_of(one, seen).ok()).collect();
    let bare = extract_indices(term).is_some();
    let head = term.items().filter(|_| !bare).map_or(term, |items| &items[0]);
    if let Some(indices) = extract_indices(head) {
        return Some(extract_fault(head, indices, &sorts));
    }
    let name = head.symbol()?;
    let (taken, count, wanted) = match operator(name) {
        Some(operator) => (operator.takes(sorts.len()), count(operator), wanted(operator).to_string()),
        None => {
            let found = &seen.iter().find(|one| one.name == name)?.operands;
            (found.len() == sorts.len(), counted(found.len() as u64, "operand"), listed(found))
        }
    };
    Some(match taken {
        true => format!("`{name}` takes {wanted}, found {}", listed(&sorts)),
        false => format!("`{name}` takes {count}, here {}", are(sorts.len())),
    })
}

/// What is wrong with a constant `(_ bvN n)`.
fn constant_fault(constant: &Constant) -> String {
    match constant.width {
        0 => "a width of 0 is none: a width is at least 1".to_string(),
        width => {
            let greatest = Sort::BitVec(width).greatest();
            format!("the value {} does not fit {}: the greatest is {greatest}", constant.digits, counted(width.into(), "bit"))
        }
    }
}

/// How many operands an operator takes.
fn count(operator: &Operator) -> String {
    match operator.or_more {
        true => format!("{} or more operands", operator.operands),
        false => counted(operator.operands as u64, "operand"),
    }
}

/// What is wrong with an `extract`.
fn extract_fault(head: &Tree, (high, low): (u32, u32), sorts: &[Sort]) -> String {
    match sorts {
        [_] if low > high => format!("`{head}` has its lower index first"),
        [Sort::BitVec(width)] => format!("`{head}` takes more than {width} bits, its operand has {width}"),
        [found] => format!("`{head}` takes a bit vector, found {found}"),
        _ => format!("`{head}` takes 1 operand, here {}", are(sorts.len())),
    }
}

/// How many operands there are.
fn are(count: usize) -> String {
    match count {
        0 => "are none".to_string(),
        1 => "is 1".to_string(),
        _ => format!("are {count}"),
    }
}

/// The operands that an operator takes.
fn wanted(operator: &Operator) -> &'static str {
    match (operator.rule, operator.operands) {
        (SortRule::Bools, 1) => "a Bool",
        (SortRule::Bools, _) => "Bools",
        (SortRule::Alike, _) => "operands of one sort",
        (SortRule::Choice, _) => "a Bool and two operands of one sort",
        (SortRule::Joined, _) => "bit vectors whose widths sum to 64 or less",
        (SortRule::Part, _) | (SortRule::Bits, 1) => "a bit vector",
        _ => "bit vectors of one width",
    }
}

/// Sorts in a row.
fn listed(sorts: &[Sort]) -> String {
    let sorts: Vec<String> = sorts.iter().map(Sort::to_string).collect();
    sorts.join(" and ")
}
