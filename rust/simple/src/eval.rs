//! "Values and cost", and the points.

use crate::constants::constant;
use crate::grammar::Sorted;
use crate::operators::Sort;
use crate::script::{Constraint, Script};
use crate::terms::{extract_indices, operands};
use crate::tree::Tree;
use crate::words::Kind;
use crate::{signed, FIRST_ASSUMPTION};
use std::collections::HashMap;
use std::fmt;

/// A value of either sort.
#[derive(Clone, Copy, Debug, PartialEq, Eq)]
pub enum Value {
    Bool(bool),
    Bits { width: u32, bits: u64 },
}

impl Value {
    /// The value of a sort that a point list writes as a number: "Bool is 0 or 1".
    pub fn new(sort: Sort, number: u64) -> Value {
        match sort {
            Sort::Bool => Value::Bool(number == 1),
            Sort::BitVec(width) => Value::Bits {
                width,
                bits: number,
            },
        }
    }

    /// The number that stands for the value in a point list.
    pub fn number(self) -> u64 {
        match self {
            Value::Bool(holds) => u64::from(holds),
            Value::Bits { bits, .. } => bits,
        }
    }

    /// The sort of the value.
    pub fn sort(self) -> Sort {
        match self {
            Value::Bool(_) => Sort::Bool,
            Value::Bits { width, .. } => Sort::BitVec(width),
        }
    }
}

impl fmt::Display for Value {
    /// `true` or `false`, or the number in hexadecimal with the digits of its width.
    fn fmt(&self, to: &mut fmt::Formatter) -> fmt::Result {
        match self {
            Value::Bool(holds) => write!(to, "{holds}"),
            Value::Bits { width, bits } => {
                let digits = width.div_ceil(4) as usize;
                write!(to, "0x{bits:0digits$x}")
            }
        }
    }
}

/// A `define-fun` or a synthesized function: its arguments, its body and the body's cost.
struct Function<'a> {
    arguments: &'a [Sorted],
    body: &'a Tree,
    cost: u128,
}

/// All functions by name; where an argument has the same name, the argument is meant.
pub struct Functions<'a> {
    by_name: HashMap<&'a str, Function<'a>>,
}

/// The values of arguments or variables by name.
pub type Values<'a> = HashMap<&'a str, Value>;

/// How the evaluation of the points ended; a number is a constraint's, or from 64 on an assumption's.
pub enum Outcome {
    Accepted { held: usize },
    False { point: usize, constraint: usize },
    BudgetEnded { point: usize, number: usize },
}

/// How the evaluation of all assumptions or all constraints at a point ended, by an index where it ended early.
enum End {
    AllHeld,
    False(usize),
    BudgetEnded(usize),
}

/// 16: "point list not whole points, or value outside its sort": "list length, or first bad index".
pub fn points_fault(points: &[u64], variables: &[Sorted]) -> Option<usize> {
    let whole = match variables.len() {
        0 => points.is_empty(),
        count => points.chunks_exact(count).remainder().is_empty(),
    };
    if !whole {
        return Some(points.len());
    }
    let outside =
        |(index, &value): (usize, &u64)| value > variables[index % variables.len()].sort.greatest();
    points.iter().enumerate().position(outside)
}

/// "for each point, each constraint in script order; the first false one ends the work with answer 14"; "At each point the
/// assumptions are evaluated first, in script order, up to the first false one, which skips the point's constraints." Gives the
/// end and the units spent.
pub fn evaluate(script: &Script, bodies: &[Tree], points: &[u64], budget: u64) -> (Outcome, u64) {
    let functions = Functions::new(script, bodies);
    let points = whole_points(points, &script.variables);
    let assumption_costs = assumption_costs(script, &functions);
    let constraint_costs = constraint_costs(script, &functions);
    let (mut held, mut left) = (0, budget);
    for (point, values) in points.iter().enumerate() {
        let mut end = |terms: &[Constraint], costs: &[u128]| {
            first_not_held(terms, costs, &functions, values, &mut left)
        };
        match end(&script.assumptions, &assumption_costs) {
            End::AllHeld => held += 1,
            End::False(_) => continue,
            End::BudgetEnded(index) => {
                let number = FIRST_ASSUMPTION + index;
                return (Outcome::BudgetEnded { point, number }, budget - left);
            }
        }
        match end(&script.constraints, &constraint_costs) {
            End::AllHeld => {}
            End::False(constraint) => return (Outcome::False { point, constraint }, budget - left),
            End::BudgetEnded(number) => {
                return (Outcome::BudgetEnded { point, number }, budget - left)
            }
        }
    }
    (Outcome::Accepted { held }, budget - left)
}

/// Evaluates terms at a point "in script order, up to the first false one", each at its cost: "One whose cost exceeds what the
/// budget has left isn't begun."
fn first_not_held(
    terms: &[Constraint],
    costs: &[u128],
    functions: &Functions,
    values: &Values,
    left: &mut u64,
) -> End {
    for (index, (Constraint { term, .. }, &cost)) in terms.iter().zip(costs).enumerate() {
        if cost > u128::from(*left) {
            return End::BudgetEnded(index);
        }
        *left -= cost as u64;
        if functions.value(term, values) != Value::Bool(true) {
            return End::False(index);
        }
    }
    End::AllHeld
}

/// The numbers of the assumptions and constraints that are false at a point, or at the last one if there are fewer, and cost no
/// more than a bound.
pub fn false_numbers(
    script: &Script,
    bodies: &[Tree],
    points: &[u64],
    point: usize,
    most: u64,
) -> Vec<usize> {
    let functions = Functions::new(script, bodies);
    let points = whole_points(points, &script.variables);
    let Some(values) = points.get(point).or(points.last()) else {
        return Vec::new();
    };
    let indices = |terms: &[Constraint], costs: Vec<u128>| {
        let is_false = |&index: &usize| {
            let value = || functions.value(&terms[index].term, values);
            costs[index] <= u128::from(most) && value() == Value::Bool(false)
        };
        (0..terms.len()).filter(is_false).collect::<Vec<usize>>()
    };
    let assumptions = indices(&script.assumptions, assumption_costs(script, &functions));
    let mut numbers = indices(&script.constraints, constraint_costs(script, &functions));
    numbers.extend(assumptions.iter().map(|index| FIRST_ASSUMPTION + index));
    numbers
}

/// The cost of each constraint, which is the same at every point.
pub fn constraint_costs(script: &Script, functions: &Functions) -> Vec<u128> {
    costs(&script.constraints, script, functions)
}

/// The cost of each assumption, which is the same at every point.
pub fn assumption_costs(script: &Script, functions: &Functions) -> Vec<u128> {
    costs(&script.assumptions, script, functions)
}

/// The costs of terms that see the script's variables.
fn costs(terms: &[Constraint], script: &Script, functions: &Functions) -> Vec<u128> {
    let variables = script.variables.iter().map(|one| one.name.as_str());
    let variables: Vec<&str> = variables.collect();
    let cost = |one: &Constraint| functions.cost(&one.term, &variables);
    terms.iter().map(cost).collect()
}

/// "one per declared variable, point after point"; "With no variables the list is empty and one empty point is taken."
pub fn whole_points<'a>(points: &[u64], variables: &'a [Sorted]) -> Vec<Values<'a>> {
    if variables.is_empty() {
        return vec![Values::new()];
    }
    let point = |numbers: &[u64]| named_values(variables, numbers);
    points.chunks(variables.len()).map(point).collect()
}

/// Variables or arguments with the values that numbers of a point list stand for.
pub fn named_values<'a>(variables: &'a [Sorted], numbers: &[u64]) -> Values<'a> {
    let pairs = variables.iter().zip(numbers);
    pairs
        .map(|(variable, &number)| (variable.name.as_str(), Value::new(variable.sort, number)))
        .collect()
}

impl<'a> Functions<'a> {
    /// The script's `define-fun`s, each calling only earlier ones, then the synthesized functions with their bodies.
    pub fn new(script: &'a Script, bodies: &'a [Tree]) -> Functions<'a> {
        let mut functions = Functions {
            by_name: HashMap::new(),
        };
        for one in &script.definitions {
            functions.add(&one.name, &one.arguments, &one.body);
        }
        for (one, body) in script.synthesized.iter().zip(bodies) {
            functions.add(&one.name, &one.arguments, body);
        }
        functions
    }

    /// Adds a function whose body calls only functions that are already there.
    fn add(&mut self, name: &'a str, arguments: &'a [Sorted], body: &'a Tree) {
        let names = arguments.iter().map(|one| one.name.as_str());
        let cost = self.cost(body, &names.collect::<Vec<&str>>());
        let function = Function {
            arguments,
            body,
            cost,
        };
        self.by_name.insert(name, function);
    }

    /// The function that a term's name or head means, unless it is one of the given leaves.
    fn called(&self, term: &Tree, is_leaf: impl Fn(&str) -> bool) -> Option<&Function<'a>> {
        let head = term.items().map_or(term, |items| &items[0]);
        let name = head.symbol().filter(|name| !is_leaf(name))?;
        self.by_name.get(name)
    }

    /// "Cost of a literal or variable is 1; of an application (a function without arguments too) 1 plus its operands'
    /// costs, plus the body's cost where it is a `define-fun` or a synthesized function." A cost past 2^128 counts as
    /// 2^128 - 1, which is past every budget all the same.
    pub fn cost(&self, term: &Tree, leaves: &[&str]) -> u128 {
        let called = self.called(term, |name| leaves.contains(&name));
        let mut cost = 1 + called.map_or(0, |function| function.cost.min(u128::MAX - 1));
        for operand in operands(term) {
            cost = cost.saturating_add(self.cost(operand, leaves));
        }
        cost
    }

    /// The value of a term without fault. "All operands are evaluated, also of `ite`."
    pub fn value(&self, term: &Tree, leaves: &Values) -> Value {
        let values = operands(term).iter();
        let values: Vec<Value> = values.map(|operand| self.value(operand, leaves)).collect();
        if let Some(function) = self.called(term, |name| leaves.contains_key(name)) {
            let names = function.arguments.iter().map(|one| one.name.as_str());
            return self.value(function.body, &names.zip(values).collect());
        }
        if let Some(value) = literal_value(term) {
            return value;
        }
        match term {
            Tree::Leaf(word) => leaves[word.text.as_str()],
            Tree::List { items, .. } => operator_value(&items[0], &values),
        }
    }
}

/// The value of a literal, which has its width: `true`, `false`, "`#x` and `#b` words", and `(_ bvN n)` within its bounds.
pub fn literal_value(tree: &Tree) -> Option<Value> {
    match tree {
        Tree::Leaf(word) => match word.kind {
            Kind::Bits { width, value } => Some(Value::Bits { width, bits: value }),
            _ if word.text == "true" => Some(Value::Bool(true)),
            _ if word.text == "false" => Some(Value::Bool(false)),
            _ => None,
        },
        Tree::List { .. } => {
            let constant = constant(tree)?;
            Some(Value::Bits {
                width: constant.width,
                bits: constant.value()?,
            })
        }
    }
}

/// The value of an operator, by the head of its application, at operands of right sorts.
pub fn operator_value(head: &Tree, operands: &[Value]) -> Value {
    match extract_indices(head) {
        Some((i, j)) => extract(i, j, operands[0]),
        None => apply(head.symbol().expect("an operator"), operands),
    }
}

/// All ones of a width.
fn ones(width: u32) -> u64 {
    u64::MAX >> (64 - width)
}

/// "results modulo 2^n".
fn modulo(width: u32, result: u128) -> Value {
    Value::Bits {
        width,
        bits: result as u64 & ones(width),
    }
}

/// `(_ extract i j)` of a value.
pub(crate) fn extract(i: u32, j: u32, value: Value) -> Value {
    match value {
        Value::Bits { bits, .. } => modulo(i - j + 1, u128::from(bits >> j)),
        Value::Bool(_) => unreachable!("extract of a Bool"),
    }
}

/// The first truth joined with the second, the result with the third, and so on.
fn from_left(operands: &[Value], join: fn(bool, bool) -> bool) -> Value {
    let truths = operands.iter().map(|&operand| operand == Value::Bool(true));
    Value::Bool(truths.reduce(join).expect("an operand"))
}

/// The last truth but one joined with the last, the one before with the result, and so on.
fn from_right(operands: &[Value], join: fn(bool, bool) -> bool) -> Value {
    let truths = operands.iter().map(|&operand| operand == Value::Bool(true));
    let joined = truths.rev().reduce(|right, left| join(left, right));
    Value::Bool(joined.expect("an operand"))
}

/// Whether each operand equals the next one.
fn chained(operands: &[Value]) -> Value {
    let mut neighbours = operands.iter().zip(&operands[1..]);
    Value::Bool(neighbours.all(|(a, b)| a == b))
}

/// Whether no operand equals a later one.
fn pairwise_distinct(operands: &[Value]) -> Value {
    let mut each = operands.iter().enumerate();
    Value::Bool(each.all(|(index, operand)| !operands[index + 1..].contains(operand)))
}

/// The value of an operator other than extract, "As in SMT-LIB"; "`and or xor` group from the left, `=>` from the right, `=`
/// chains, `distinct` is pairwise".
pub(crate) fn apply(operator: &str, operands: &[Value]) -> Value {
    use Value::{Bits, Bool};
    match (operator, operands) {
        ("not", [Bool(a)]) => Bool(!a),
        ("and", _) => from_left(operands, |a, b| a && b),
        ("or", _) => from_left(operands, |a, b| a || b),
        ("xor", _) => from_left(operands, |a, b| a != b),
        ("=>", _) => from_right(operands, |a, b| !a || b),
        ("=", _) => chained(operands),
        ("distinct", _) => pairwise_distinct(operands),
        ("ite", [Bool(condition), a, b]) => {
            if *condition {
                *a
            } else {
                *b
            }
        }
        ("bvnot", [Bits { width, bits }]) => Bits {
            width: *width,
            bits: ones(*width) - bits,
        },
        ("bvneg", [Bits { width, bits }]) => modulo(*width, (1 << width) - u128::from(*bits)),
        ("concat", [Bits { width: m, bits: a }, Bits { width: n, bits: b }]) => {
            modulo(m + n, (u128::from(*a) << n) + u128::from(*b))
        }
        (_, [Bits { width, bits: a }, Bits { bits: b, .. }]) => on_words(operator, *width, *a, *b),
        _ => unreachable!("{operator} with its operands"),
    }
}

/// The value of an operator on two words of width n, of a signed one by the numbers that the words stand for.
fn on_words(operator: &str, n: u32, a: u64, b: u64) -> Value {
    let (signed_a, signed_b) = (signed::number(n, a), signed::number(n, b));
    let whole = |result: i128| modulo(n, result.rem_euclid(1 << n) as u128);
    match operator {
        "bvult" => Value::Bool(a < b),
        "bvule" => Value::Bool(a <= b),
        "bvugt" => Value::Bool(a > b),
        "bvuge" => Value::Bool(a >= b),
        "bvslt" => Value::Bool(signed_a < signed_b),
        "bvsle" => Value::Bool(signed_a <= signed_b),
        "bvsgt" => Value::Bool(signed_a > signed_b),
        "bvsge" => Value::Bool(signed_a >= signed_b),
        "bvsdiv" => whole(signed::quotient(signed_a, signed_b)),
        "bvsrem" => whole(signed::remainder(signed_a, signed_b)),
        "bvsmod" => whole(signed::modulus(signed_a, signed_b)),
        "bvashr" => whole(signed::halved(n, signed_a, b)),
        _ => modulo(n, arithmetic(operator, n, u128::from(a), u128::from(b))),
    }
}

/// The result, not yet modulo 2^n, of an unsigned operator on two words of width n: "division by 0 gives all ones,
/// remainder by 0 the dividend; a shift by n or more gives 0".
fn arithmetic(operator: &str, n: u32, a: u128, b: u128) -> u128 {
    match operator {
        "bvand" => a & b,
        "bvor" => a | b,
        "bvxor" => a ^ b,
        "bvadd" => a + b,
        "bvsub" => (1 << n) + a - b,
        "bvmul" => a * b,
        "bvudiv" if b == 0 => u128::from(ones(n)),
        "bvudiv" => a / b,
        "bvurem" if b == 0 => a,
        "bvurem" => a % b,
        "bvshl" | "bvlshr" if b >= u128::from(n) => 0,
        "bvshl" => a << b,
        "bvlshr" => a >> b,
        _ => unreachable!("{operator} on two words"),
    }
}
