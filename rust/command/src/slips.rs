//! Slips: one change of one literal or operator of the texts, as a person or a solver could make it.

use crate::program::{Place, Program};
use crate::trials::head;
use simple::eval::{literal_value, Value};
use simple::operators::{operator, Sort, OPERATORS};
use simple::tree::Tree;
use std::rc::Rc;

/// What stands at a place in the place of what is written.
#[derive(Debug)]
pub enum Change {
    Literal(Value),
    Operator(Tree),
}

/// A change with the nodes whose values it may change, each after its operands, and whether it is made at them.
#[derive(Debug)]
pub struct Slip {
    pub change: Change,
    pub nodes: Rc<[(usize, bool)]>,
}

/// The slips of a program: those in a literal of a body, which are likelier, then those in an operator of a body or a literal of the script.
pub fn slips(program: &Program, sorts: &[Sort]) -> [Vec<Slip>; 2] {
    let literals = |in_response: bool| {
        let places = program.places.iter();
        let places = places.filter(move |place| place.in_response == in_response);
        places.flat_map(|place| changed(program, place, literals(place.term)))
    };
    let bodies = program.places.iter().filter(|place| place.in_response);
    let operators =
        bodies.flat_map(|place| changed(program, place, operators(program, place, sorts)));
    let others = operators.chain(literals(false));
    [literals(true).collect(), others.collect()]
}

/// The slips of changes at a place.
fn changed(program: &Program, place: &Place, changes: Vec<Change>) -> Vec<Slip> {
    if changes.is_empty() {
        return Vec::new();
    }
    let above = program.above(&place.nodes);
    let nodes = (0..above.len()).filter(|&node| above[node]);
    let nodes: Rc<[(usize, bool)]> = nodes
        .map(|node| (node, place.nodes.contains(&node)))
        .collect();
    let slip = |change| Slip {
        change,
        nodes: nodes.clone(),
    };
    changes.into_iter().map(slip).collect()
}

/// The literals that differ from one in a digit, or are the next greater or smaller number.
fn literals(term: &Tree) -> Vec<Change> {
    let Some(value) = literal_value(term) else {
        return Vec::new();
    };
    let Value::Bits { width, bits } = value else {
        return vec![Change::Literal(Value::Bool(value == Value::Bool(false)))];
    };
    let mut numbers = match term {
        Tree::Leaf(word) if word.text.starts_with("#x") => other_digits(width, bits, 4),
        Tree::Leaf(_) => other_digits(width, bits, 1),
        Tree::List { .. } => other_decimals(Sort::BitVec(width).greatest(), bits),
    };
    for next in [bits.wrapping_add(1), bits.wrapping_sub(1)] {
        let next = next & Sort::BitVec(width).greatest();
        if next != bits && !numbers.contains(&next) {
            numbers.push(next);
        }
    }
    let literal = |bits| Change::Literal(Value::Bits { width, bits });
    numbers.into_iter().map(literal).collect()
}

/// The numbers of a width that differ from one in a digit of so many bits.
fn other_digits(width: u32, bits: u64, digit: usize) -> Vec<u64> {
    let others = |place: u32| (1..1 << digit).map(move |other: u64| bits ^ other << place);
    (0..width).step_by(digit).flat_map(others).collect()
}

/// The numbers up to the greatest that differ from one in a decimal digit.
fn other_decimals(greatest: u64, bits: u64) -> Vec<u64> {
    let (greatest, number) = (u128::from(greatest), u128::from(bits));
    let places = 0..bits.to_string().len() as u32;
    let others = places.flat_map(|place| {
        let power = 10u128.pow(place);
        let rest = number - number / power % 10 * power;
        (0..10).map(move |digit| rest + digit * power)
    });
    let others = others.filter(|&other| other != number && other <= greatest);
    others.map(|other| other as u64).collect()
}

/// The operators that could stand in the place of one by the sorts of its operands.
fn operators(program: &Program, place: &Place, sorts: &[Sort]) -> Vec<Change> {
    let name = place.term.items().and_then(|items| items[0].symbol());
    let Some(name) = name.filter(|name| operator(name).is_some()) else {
        return Vec::new();
    };
    let node = place.nodes[0];
    let given: Vec<Sort> = program
        .operands(node)
        .iter()
        .map(|&one| sorts[one])
        .collect();
    let rows = OPERATORS.iter().filter(|row| row.name != name);
    let rows = rows.filter(|row| row.sort(None, &given) == Some(sorts[node]));
    rows.map(|row| Change::Operator(head(row.name))).collect()
}

#[cfg(test)]
mod tests {
    use super::*;

    #[test]
    fn numbers_with_another_digit() {
        assert_eq!(other_digits(8, 0x0f, 4).len(), 30);
        assert_eq!(other_digits(3, 0b101, 1), [0b100, 0b111, 0b001]);
        let others = other_decimals(255, 15);
        assert_eq!(others.len(), 18);
        assert!(others.contains(&95) && others.contains(&10) && others.contains(&5));
        assert_eq!(other_decimals(7, 7), [0, 1, 2, 3, 4, 5, 6]);
        let greatest = other_decimals(u64::MAX, u64::MAX);
        assert!(
            greatest.contains(&8_446_744_073_709_551_615) && greatest.contains(&(u64::MAX - 5))
        );
    }
}
