//! Operands found by trial: values of an operand at which an operator gives what is wanted. What an operator means is known only by applying it, so that this
//! holds for every operator that the simple checker has.

use crate::edges::parts;
use crate::random::Random;
use simple::eval::{operator_value, Value};
use simple::operators::{Sort, SortRule, OPERATORS};
use simple::tree::Tree;
use simple::words::{Kind, Word};

/// All values of a word of fewer bits are tried.
const LONG_BITS: u32 = 9;
/// So many pseudo-random values are tried of a longer word.
const RANDOM_TRIALS: usize = 8;

/// Values to try, and how many applications of operators were tried so far.
pub struct Trials {
    pub random: Random,
    pub spent: u64,
    /// The operators that make a word of two words of its width.
    heads: Vec<Tree>,
}

impl Trials {
    /// Trials with a seed.
    pub fn new(seed: u64) -> Trials {
        let rows = OPERATORS.iter();
        let rows = rows.filter(|row| row.rule == SortRule::Bits && row.operands == 2);
        Trials {
            random: Random(seed),
            spent: 0,
            heads: rows.map(|row| head(row.name)).collect(),
        }
    }

    /// Values of a sort that are worth a trial where an operand is now one value and other values stand about it.
    pub fn values(&mut self, now: Value, about: &[Value]) -> Vec<Value> {
        let Sort::BitVec(width) = now.sort() else {
            return vec![Value::Bool(false), Value::Bool(true)];
        };
        let greatest = now.sort().greatest();
        let bits = |number: u64| Value::Bits {
            width,
            bits: number & greatest,
        };
        if width < LONG_BITS {
            return (0..=greatest).map(bits).collect();
        }
        let near = about.iter().flat_map(|one| at_width(width, *one));
        let near: Vec<u64> = near.collect();
        let mut trials: Vec<Value> = self.joined(&near, &bits);
        for &one in &near {
            let neighbours = [one, one.wrapping_add(1), one.wrapping_sub(1), !one];
            trials.extend(neighbours.map(bits));
            trials.push(bits(one.wrapping_neg()));
        }
        trials.extend((0..=u64::from(width)).map(bits));
        trials.extend((0..width).map(|bit| bits(now.number() ^ 1 << bit)));
        trials.extend([greatest, greatest - 1, greatest / 2, greatest / 2 + 1].map(bits));
        trials.extend((0..RANDOM_TRIALS).map(|_| bits(self.random.short())));
        let above = near.iter().filter(|&&one| one > 0);
        trials.extend(above.map(|&one| bits(self.random.next() % one)));
        trials
    }

    /// What the operators on two words make of every two values.
    fn joined(&mut self, near: &[u64], bits: &dyn Fn(u64) -> Value) -> Vec<Value> {
        let near: Vec<Value> = near.iter().take(4).map(|&one| bits(one)).collect();
        let pairs = near.iter().flat_map(|&a| near.iter().map(move |&b| [a, b]));
        let heads = &self.heads;
        let joined =
            pairs.flat_map(|pair| heads.iter().map(move |head| operator_value(head, &pair)));
        let joined: Vec<Value> = joined.collect();
        self.spent += joined.len() as u64;
        joined
    }

    /// The values of an operand, of those that are tried, at which an application gives a target.
    pub fn inverses(
        &mut self,
        apply: &dyn Fn(Value) -> Value,
        now: Value,
        target: Value,
        about: &[Value],
    ) -> Vec<Value> {
        let Sort::BitVec(width @ LONG_BITS..) = now.sort() else {
            let trials = self.values(now, about);
            return self.fitting(trials, apply, now, target);
        };
        let greatest = now.sort().greatest();
        let bits = |number: u64| Value::Bits {
            width,
            bits: number & greatest,
        };
        let found = self.solved(apply, width, now, target).map(bits);
        let found = self.fitting(found.to_vec(), apply, now, target);
        if !found.is_empty() && self.random.below(4) > 0 {
            return found;
        }
        let trials = self.values(now, about);
        self.fitting([found, trials].concat(), apply, now, target)
    }

    /// The values among some at which an application gives a target, but for the one that the operand has now.
    fn fitting(
        &mut self,
        mut values: Vec<Value>,
        apply: &dyn Fn(Value) -> Value,
        now: Value,
        target: Value,
    ) -> Vec<Value> {
        self.spent += values.len() as u64;
        values.retain(|&value| value != now && apply(value) == target);
        values
    }

    /// Numbers at which an application would give a target, if its result moved as the operand does, or could be put right bit by bit from where it is now or
    /// from anywhere, or grew with the operand.
    fn solved(
        &mut self,
        apply: &dyn Fn(Value) -> Value,
        width: u32,
        now: Value,
        target: Value,
    ) -> [u64; 6] {
        let moved = target.number().wrapping_sub(apply(now).number());
        let low = |given: Value| (given.number() ^ target.number()).trailing_zeros();
        let alike = |given: Value| (given.number() ^ target.number()).count_zeros();
        let start = match self.random.below(2) {
            0 => now.number(),
            _ => self.random.next(),
        };
        self.spent += 3 * u64::from(width) + 1;
        [
            target.number(),
            now.number().wrapping_add(moved),
            now.number().wrapping_sub(moved),
            bit_by_bit(apply, width, start, &low),
            bit_by_bit(apply, width, start, &alike),
            greatest_below(apply, width, target),
        ]
    }
}

/// An operator's name as the head of an application.
pub fn head(name: &str) -> Tree {
    Tree::Leaf(Word {
        start: 0,
        text: name.to_string(),
        kind: Kind::Symbol,
    })
}

/// A value as numbers of a width.
fn at_width(width: u32, value: Value) -> Vec<u64> {
    match value {
        Value::Bool(_) => Vec::new(),
        Value::Bits { width: own, bits } => parts(width, (own, bits)),
    }
}

/// A number whose bits are turned, from the lowest, where that makes the result better.
fn bit_by_bit(
    apply: &dyn Fn(Value) -> Value,
    width: u32,
    start: u64,
    good: &dyn Fn(Value) -> u32,
) -> u64 {
    let bits = |number: u64| Value::Bits {
        width,
        bits: number,
    };
    let mut number = start & Sort::BitVec(width).greatest();
    let mut best = good(apply(bits(number)));
    for bit in 0..width {
        let turned = number ^ 1 << bit;
        let found = good(apply(bits(turned)));
        if found > best {
            (number, best) = (turned, found);
        }
    }
    number
}

/// The greatest number at which a result that grows with it is at most the target.
fn greatest_below(apply: &dyn Fn(Value) -> Value, width: u32, target: Value) -> u64 {
    let mut number = 0;
    for bit in (0..width).rev() {
        let bits = number | 1 << bit;
        if apply(Value::Bits { width, bits }).number() <= target.number() {
            number = bits;
        }
    }
    number
}

#[cfg(test)]
mod tests {
    use super::*;

    /// Whether an operand is found at which an operator gives what it gives at another one.
    fn found(name: &str, width: u32, hidden: u64, other: u64, first: bool) -> bool {
        let bits = |bits: u64| Value::Bits { width, bits };
        let head = head(name);
        let apply = |value: Value| match first {
            true => operator_value(&head, &[value, bits(other)]),
            false => operator_value(&head, &[bits(other), value]),
        };
        let target = apply(bits(hidden));
        let (mut trials, now) = (Trials::new(1), bits(12_345));
        let about = [target, bits(other), now, apply(now)];
        apply(now) == target || !trials.inverses(&apply, now, target, &about).is_empty()
    }

    #[test]
    fn operands_of_every_operator_on_two_words_are_found() {
        let mut random = Random(7);
        for row in OPERATORS {
            let on_words =
                row.operands == 2 && matches!(row.rule, SortRule::Bits | SortRule::Order);
            for _ in 0..20 {
                let (hidden, other) = (random.next() >> 32, random.next() >> 32 | 1);
                let found = !on_words || found(row.name, 32, hidden, other, true);
                assert!(found, "{} {hidden} {other}", row.name);
            }
        }
        for name in [
            "bvadd", "bvsub", "bvxor", "bvshl", "bvlshr", "bvudiv", "bvult",
        ] {
            assert!(found(name, 32, 5, 0x1234_5678, false), "{name}");
        }
    }

    /// Numbers of 32 bits that stand for large and for small whole numbers of either sign, the small ones last.
    const WHOLE: [u64; 6] = [
        0x7fff_ffff,
        0x8000_0000,
        0x1234_5678,
        0xedcb_a988,
        7,
        0xffff_fff9,
    ];

    #[test]
    fn operands_of_signed_operators_are_found() {
        for name in [
            "bvsdiv", "bvsrem", "bvsmod", "bvashr", "bvslt", "bvsle", "bvsgt", "bvsge", "bvule",
            "bvugt", "bvuge",
        ] {
            for other in WHOLE {
                for hidden in WHOLE {
                    let first = found(name, 32, hidden, other, true);
                    assert!(first, "first of {name} {hidden:#x} {other:#x}");
                }
                for hidden in &WHOLE[4..] {
                    let second = found(name, 32, *hidden, other, false);
                    assert!(second, "second of {name} {other:#x} {hidden:#x}");
                }
            }
        }
    }
}
