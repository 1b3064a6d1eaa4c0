//! Lists of steps that no body gave, with arguments: sound ones, some about the size of the stack, and lists and arguments that are changed.

use super::draft::value;
use super::random::Random;
use crate::operators::{Operator, Sort, SortRule, OPERATORS};
use crate::steps::{width, APPLY, ARGUMENT, CONSTANT, MOST_VALUES, STEP};

/// What the runner takes.
#[derive(Clone, Debug, PartialEq, Eq)]
pub struct Run {
    pub sorts: Vec<u64>,
    pub arguments: Vec<u64>,
    pub steps: Vec<u64>,
}

/// The sorts of an operator's operands, and i and j of an `extract`.
type Operands = (Vec<Sort>, Option<(u64, u64)>);

/// A list while it is made, and the sorts of the arguments.
struct Maker<'a> {
    random: &'a mut Random,
    sorts: Vec<Sort>,
    steps: Vec<u64>,
}

/// A list with its arguments, from a seed.
pub fn foreign(seed: u64) -> Run {
    let mut random = Random::new(seed.rotate_left(48));
    let count = random.pick(&[0, 1, 1, 2, 2, 3, 4, 9, 20]);
    let sorts: Vec<Sort> = (0..count).map(|_| any_sort(&mut random)).collect();
    let arguments = sorts.iter().map(|&sort| value(&mut random, sort));
    let arguments = arguments.collect();
    let mut maker = Maker {
        random: &mut random,
        sorts: sorts.clone(),
        steps: Vec::new(),
    };
    match maker.random.below(10) {
        0 => maker.crowd(),
        1 | 2 => maker.wander(),
        _ => {
            let sort = any_sort(maker.random);
            let depth = maker.random.below(6);
            maker.term(sort, depth);
        }
    }
    let mut run = Run {
        steps: maker.steps,
        sorts: sorts.into_iter().map(width).collect(),
        arguments,
    };
    for _ in 0..random.pick(&[0, 0, 0, 1, 1, 2]) {
        change(&mut random, &mut run.steps);
    }
    if random.percent(10) {
        estrange(&mut random, &mut run);
    }
    run
}

/// A sort that many values have.
fn any_sort(random: &mut Random) -> Sort {
    let any = random.between(1, 64) as u32;
    match random.pick(&[0, 0, 1, 8, 8, 32, 64, any]) {
        0 => Sort::Bool,
        width => Sort::BitVec(width),
    }
}

impl Maker<'_> {
    /// Adds a step.
    fn add(&mut self, step: [u64; STEP]) {
        self.steps.extend(step);
    }

    /// Adds a leaf of a sort: an argument where one has it, or a constant.
    fn leaf(&mut self, sort: Sort) {
        let own = (0..self.sorts.len()).filter(|&index| self.sorts[index] == sort);
        let own: Vec<usize> = own.collect();
        match own.is_empty() || self.random.percent(30) {
            true => {
                let value = value(self.random, sort);
                self.add([CONSTANT, value, width(sort), 0]);
            }
            false => {
                let index = self.random.pick(&own);
                self.add([ARGUMENT, index as u64, 0, 0]);
            }
        }
    }

    /// Adds the steps of a term of a sort.
    fn term(&mut self, sort: Sort, depth: usize) {
        if depth == 0 || self.random.percent(15) {
            return self.leaf(sort);
        }
        let (number, (operands, part)) = self.operator(sort);
        let count = operands.len() as u64;
        for operand in operands {
            let depth = self.random.below(depth);
            self.term(operand, depth);
        }
        match part {
            Some((i, j)) => self.add([APPLY, number, i, j]),
            None => self.add([APPLY, number, count, 0]),
        }
    }

    /// An operator whose result may have a sort: its number, and its operands.
    fn operator(&mut self, sort: Sort) -> (u64, Operands) {
        loop {
            let number = self.random.below(OPERATORS.len());
            let operator = &OPERATORS[number];
            if let Some(operands) = self.operands(operator, sort) {
                return (number as u64, operands);
            }
        }
    }

    /// The sorts of operands for which an operator's result has a sort, where it can have it.
    fn operands(&mut self, operator: &Operator, result: Sort) -> Option<Operands> {
        let more = match operator.or_more {
            true => self.random.pick(&[0, 0, 1, 2, 5]),
            false => 0,
        };
        let count = operator.operands + more;
        let any = self.random.between(1, 64) as u32;
        let operands = match (operator.rule, result) {
            (SortRule::Bools, Sort::Bool) => vec![Sort::Bool; count],
            (SortRule::Alike, Sort::Bool) => vec![any_sort(self.random); count],
            (SortRule::Choice, _) => vec![Sort::Bool, result, result],
            (SortRule::Bits, Sort::BitVec(_)) => vec![result; count],
            (SortRule::Order, Sort::Bool) => vec![Sort::BitVec(any); count],
            (SortRule::Joined, Sort::BitVec(width)) if width > 1 => {
                let high = self.random.between(1, width as usize - 1) as u32;
                vec![Sort::BitVec(high), Sort::BitVec(width - high)]
            }
            (SortRule::Part, Sort::BitVec(width)) => {
                let whole = self.random.between(width as usize, 64) as u32;
                let low = self.random.below((whole - width) as usize + 1) as u64;
                let part = (low + u64::from(width) - 1, low);
                return Some((vec![Sort::BitVec(whole)], Some(part)));
            }
            _ => return None,
        };
        Some((operands, None))
    }

    /// About as many values as the stack holds, which an operator then takes all.
    fn crowd(&mut self) {
        let count = MOST_VALUES + self.random.below(5) - 2;
        let sort = self.random.pick(&[Sort::Bool, Sort::BitVec(8)]);
        for _ in 0..count {
            self.leaf(sort);
        }
        let names = match sort {
            Sort::Bool => ["and", "or", "xor", "=>", "=", "distinct"],
            Sort::BitVec(_) => ["=", "distinct", "=", "distinct", "=", "distinct"],
        };
        let name = self.random.pick(&names);
        let number = OPERATORS.iter().position(|one| one.name == name);
        let number = number.expect("an operator of Core") as u64;
        self.add([APPLY, number, count as u64, 0]);
    }

    /// Steps one after another, most of which find what they need on the stack; the list may end with any number of values.
    fn wander(&mut self) {
        let mut stack: Vec<Sort> = Vec::new();
        for _ in 0..self.random.below(40) {
            let number = self.random.below(OPERATORS.len());
            let operator = &OPERATORS[number];
            let count =
                operator.operands + usize::from(operator.or_more && self.random.percent(30));
            let below = stack.len().saturating_sub(count);
            let part = match (operator.rule, stack.last()) {
                (SortRule::Part, Some(Sort::BitVec(width))) => {
                    let i = self.random.below(*width as usize) as u32;
                    Some((i, self.random.below(i as usize + 1) as u32))
                }
                _ => None,
            };
            match operator.sort(part, &stack[below..]) {
                Some(sort) => {
                    stack.truncate(below);
                    stack.push(sort);
                    let numbers = part.map_or([count as u64, 0], |(i, j)| [i.into(), j.into()]);
                    self.add([APPLY, number as u64, numbers[0], numbers[1]]);
                }
                None => {
                    let again = stack.last().copied();
                    let sort = again.filter(|_| self.random.percent(60));
                    let sort = sort.unwrap_or_else(|| any_sort(self.random));
                    stack.push(sort);
                    self.leaf(sort);
                }
            }
        }
    }
}

/// Another number in the place of one.
fn other(random: &mut Random, number: u64) -> u64 {
    let any = random.number();
    let small = random.below(40) as u64;
    random.pick(&[
        number.wrapping_add(1),
        number.wrapping_sub(1),
        number.wrapping_add(1 << 32),
        number.wrapping_add(256),
        0,
        1,
        small,
        small,
        65,
        u64::MAX,
        any,
    ])
}

/// Changes a list at one place.
fn change(random: &mut Random, steps: &mut Vec<u64>) {
    if steps.is_empty() {
        return;
    }
    let at = random.below(steps.len());
    let start = at / STEP * STEP;
    let step: Vec<u64> = steps[start..].iter().take(STEP).copied().collect();
    match random.below(9) {
        0..=3 => steps[at] = other(random, steps[at]),
        4 => drop(steps.drain(start..start + step.len())),
        5 => drop(steps.splice(start..start, step)),
        6 => steps.truncate(at),
        7 => drop(steps.drain(at..=at)),
        _ => {
            let number = random.below(OPERATORS.len()) as u64;
            let count = random.pick(&[0, 1, 2, 3, 255, u64::MAX]);
            steps.splice(start..start, [APPLY, number, count, 0]);
        }
    }
}

/// Changes arguments or their sorts, so that they are of wrong count or range, or no sorts.
fn estrange(random: &mut Random, run: &mut Run) {
    let count = run.arguments.len();
    match random.below(4) {
        0 => run.arguments.push(1),
        1 => drop(run.sorts.pop()),
        _ if count == 0 => run.sorts.push(8),
        2 => {
            let index = random.below(count);
            run.sorts[index] = random.pick(&[65, 66, 1 << 32, u64::MAX]);
        }
        _ => {
            let index = random.below(count);
            let greatest = match run.sorts[index] {
                0 => 1,
                width => u64::MAX >> (64 - width),
            };
            run.arguments[index] = greatest.wrapping_add(random.pick(&[0, 1, 1, 2]));
        }
    }
}
