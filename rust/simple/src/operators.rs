//! "Each operator's name, operand count and sort rule stand in one table."

use std::fmt;

/// "Sorts: `Bool`, `(_ BitVec n)`".
#[derive(Clone, Copy, Debug, PartialEq, Eq)]
pub enum Sort {
    Bool,
    BitVec(u32),
}

impl Sort {
    /// The greatest number that a point list may have for a variable of the sort: "Bool is 0 or 1".
    pub fn greatest(self) -> u64 {
        match self {
            Sort::Bool => 1,
            Sort::BitVec(width) => u64::MAX >> (64 - width),
        }
    }
}

impl fmt::Display for Sort {
    /// As a script writes it.
    fn fmt(&self, to: &mut fmt::Formatter) -> fmt::Result {
        match self {
            Sort::Bool => to.write_str("Bool"),
            Sort::BitVec(width) => write!(to, "(_ BitVec {width})"),
        }
    }
}

/// How an operator's sort follows from the sorts of its operands.
#[derive(Clone, Copy, Debug, PartialEq, Eq)]
pub enum SortRule {
    /// All operands are Bool, and so is the result.
    Bools,
    /// All operands have one sort, the result is Bool.
    Alike,
    /// A Bool and two operands of one sort, which is the result's.
    Choice,
    /// The operands have one width, which is the result's.
    Bits,
    /// The operands have one width, the result is Bool.
    Order,
    /// The widths add up; "A `concat` wider than 64 is answer 8".
    Joined,
    /// "`(_ extract i j)`(1), where j ≤ i < n (else 8) and the width is i - j + 1".
    Part,
}

/// A row of the table; where more operands may stand, `operands` is the least number.
#[derive(Debug)]
pub struct Operator {
    pub name: &'static str,
    pub operands: usize,
    pub or_more: bool,
    pub rule: SortRule,
}

/// Makes a row of an operator that has so many operands.
const fn row(name: &'static str, operands: usize, rule: SortRule) -> Operator {
    Operator {
        name,
        operands,
        or_more: false,
        rule,
    }
}

/// Makes a row of an operator "with two or more operands as Core says".
const fn core(name: &'static str, rule: SortRule) -> Operator {
    Operator {
        name,
        operands: 2,
        or_more: true,
        rule,
    }
}

/// "Operators, two operands each unless said"; "`and or xor` group from the left, `=>` from the right, `=` chains, `distinct`
/// is pairwise, each with two or more operands"; "Add `bvsdiv bvsrem bvsmod bvashr bvslt bvsle bvsgt bvsge` and the unsigned
/// `bvule bvugt bvuge`".
pub const OPERATORS: [Operator; 34] = [
    row("not", 1, SortRule::Bools),
    core("and", SortRule::Bools),
    core("or", SortRule::Bools),
    core("xor", SortRule::Bools),
    core("=>", SortRule::Bools),
    core("=", SortRule::Alike),
    core("distinct", SortRule::Alike),
    row("ite", 3, SortRule::Choice),
    row("bvnot", 1, SortRule::Bits),
    row("bvneg", 1, SortRule::Bits),
    row("bvand", 2, SortRule::Bits),
    row("bvor", 2, SortRule::Bits),
    row("bvxor", 2, SortRule::Bits),
    row("bvadd", 2, SortRule::Bits),
    row("bvsub", 2, SortRule::Bits),
    row("bvmul", 2, SortRule::Bits),
    row("bvudiv", 2, SortRule::Bits),
    row("bvurem", 2, SortRule::Bits),
    row("bvshl", 2, SortRule::Bits),
    row("bvlshr", 2, SortRule::Bits),
    row("bvult", 2, SortRule::Order),
    row("concat", 2, SortRule::Joined),
    row("extract", 1, SortRule::Part),
    row("bvsdiv", 2, SortRule::Bits),
    row("bvsrem", 2, SortRule::Bits),
    row("bvsmod", 2, SortRule::Bits),
    row("bvashr", 2, SortRule::Bits),
    row("bvslt", 2, SortRule::Order),
    row("bvsle", 2, SortRule::Order),
    row("bvsgt", 2, SortRule::Order),
    row("bvsge", 2, SortRule::Order),
    row("bvule", 2, SortRule::Order),
    row("bvugt", 2, SortRule::Order),
    row("bvuge", 2, SortRule::Order),
];

/// The row of a name.
pub fn operator(name: &str) -> Option<&'static Operator> {
    OPERATORS.iter().find(|operator| operator.name == name)
}

/// "operator's number in the table", which counts from 0.
pub fn operator_number(name: &str) -> Option<u64> {
    let index = OPERATORS.iter().position(|one| one.name == name)?;
    Some(index as u64)
}

impl Operator {
    /// Whether it may have so many operands.
    pub fn takes(&self, count: usize) -> bool {
        count == self.operands || self.or_more && count > self.operands
    }

    /// The sort of an application, none if the operand count or a sort is at fault; `part` is i and j of an extract.
    pub fn sort(&self, part: Option<(u32, u32)>, operands: &[Sort]) -> Option<Sort> {
        if !self.takes(operands.len()) {
            return None;
        }
        match (self.rule, operands) {
            (SortRule::Bools, _) => {
                let all_bool = operands.iter().all(|&sort| sort == Sort::Bool);
                all_bool.then_some(Sort::Bool)
            }
            (SortRule::Alike, [first, others @ ..]) => {
                let alike = others.iter().all(|sort| sort == first);
                alike.then_some(Sort::Bool)
            }
            (SortRule::Choice, [Sort::Bool, a, b]) => (a == b).then_some(*a),
            (SortRule::Bits, [a @ Sort::BitVec(_)]) => Some(*a),
            (SortRule::Bits, [a @ Sort::BitVec(_), b]) => (a == b).then_some(*a),
            (SortRule::Order, [a @ Sort::BitVec(_), b]) => (a == b).then_some(Sort::Bool),
            (SortRule::Joined, [Sort::BitVec(m), Sort::BitVec(n)]) => {
                (m + n <= 64).then_some(Sort::BitVec(m + n))
            }
            (SortRule::Part, [Sort::BitVec(n)]) => {
                let (i, j) = part?;
                (j <= i && i < *n).then(|| Sort::BitVec(i - j + 1))
            }
            _ => None,
        }
    }
}
