//! "Steps for the controller": the list of an accepted body, and the stack controller that runs any list.

use crate::eval::{apply, extract, literal_value, Value};
use crate::operators::{operator_number, Sort, OPERATORS};
use crate::script::Synthesized;
use crate::terms::{extract_indices, operands, MOST_WIDTH};
use crate::tree::Tree;
use crate::{check, response, script, Answer, AREA_LENGTH};

/// "an area not of 1,024 64-bit numbers".
pub const STEPS_LENGTH: usize = 1_024;
/// "each four numbers".
pub const STEP: usize = 4;
/// "a 257th value on the stack".
pub const MOST_VALUES: usize = 256;

/// "push argument is 1".
pub const ARGUMENT: u64 = 1;
/// "push constant 2".
pub const CONSTANT: u64 = 2;
/// "apply 3".
pub const APPLY: u64 = 3;

/// The four numbers of a step.
type Step = [u64; STEP];

/// "Turn an accepted body into steps": the answer, and how many steps were written to the area.
pub fn steps(
    script: &[u8],
    response: &[u8],
    points: &[u64],
    budget: u64,
    function: u64,
    area: &mut [u64],
) -> (Answer, usize) {
    if area.len() != STEPS_LENGTH {
        return (Answer::about_none(17, area.len() as u64), 0);
    }
    let answer = check(script, response, points, budget, &mut [0; AREA_LENGTH]);
    if answer.number != 0 {
        return (answer, 0);
    }
    let Some(list) = list_of(script, response, function) else {
        return (Answer::about_none(18, function), 0);
    };
    let numbers = list.concat();
    area[..numbers.len()].copy_from_slice(&numbers);
    (answer, list.len())
}

/// The list of a function of texts that are accepted; none for "A body using a `define-fun`, or a function number the script lacks".
fn list_of(script: &[u8], response: &[u8], function: u64) -> Option<Vec<Step>> {
    let script = script::read(script).expect("a sound script");
    let bodies = response::read(response, &script).expect("a sound response");
    let index = usize::try_from(function).ok()?;
    list(script.synthesized.get(index)?, bodies.get(index)?)
}

/// The list of a body: "as many steps as the body has nodes, operands in order, operator after them"; none where it uses a `define-fun`.
fn list(function: &Synthesized, body: &Tree) -> Option<Vec<Step>> {
    let mut list = Vec::new();
    for operand in operands(body) {
        list.extend(self::list(function, operand)?);
    }
    list.push(own_step(function, body)?);
    Some(list)
}

/// The step of a node: "push argument is 1, its number; push constant 2, value, width (0 Bool); apply 3, operator's number in the table, operand count
/// (extract: i, j)".
fn own_step(function: &Synthesized, node: &Tree) -> Option<Step> {
    if let Some(value) = literal_value(node) {
        return Some([CONSTANT, value.number(), width(value.sort()), 0]);
    }
    let head = node.items().map_or(node, |items| &items[0]);
    if let Some((i, j)) = extract_indices(head) {
        return Some([APPLY, operator_number("extract")?, i.into(), j.into()]);
    }
    let name = head.symbol()?;
    let mut arguments = function.arguments.iter();
    if let Some(number) = arguments.position(|argument| argument.name == name) {
        return Some([ARGUMENT, number as u64, 0, 0]);
    }
    let count = operands(node).len() as u64;
    Some([APPLY, operator_number(name)?, count, 0])
}

/// "width (0 Bool)".
pub fn width(sort: Sort) -> u64 {
    match sort {
        Sort::Bool => 0,
        Sort::BitVec(width) => width.into(),
    }
}

/// "(0 Bool, else a width to 64; another number is 20 too)".
pub fn sort(width: u64) -> Option<Sort> {
    match u32::try_from(width).ok()? {
        0 => Some(Sort::Bool),
        width => (width <= MOST_WIDTH).then_some(Sort::BitVec(width)),
    }
}

/// Why the runner refuses: what is wrong with the arguments, with a step or with the end of a list.
#[derive(Clone, Debug, PartialEq, Eq)]
pub enum Cause {
    /// There are not as many arguments as sorts.
    Count,
    /// A number is no sort.
    NoSort,
    /// An argument is no value of its sort.
    Range,
    /// Fewer than four numbers are left.
    CutShort,
    /// The first number is no step's, or an unused one is not 0.
    Malformed,
    /// There is no argument of this number.
    NoArgument,
    /// A constant is no value of a sort.
    NoConstant,
    /// There is no operator of this number.
    NoOperator,
    /// The operator does not have so many operands.
    Operands,
    /// The stack has fewer values: so many.
    TooFew(usize),
    /// The operands are of wrong sorts: these.
    WronglySorted(Vec<Sort>),
    /// The stack has 256 values already.
    Full,
    /// The list ends with so many values.
    End(usize),
}

/// What the runner refuses: the answer's number, its place, and why.
#[derive(Clone, Debug, PartialEq, Eq)]
pub struct Refusal {
    pub number: u8,
    pub place: u64,
    pub cause: Cause,
}

/// "The runner is public": the value that a list ends with, or why it is refused.
pub fn run(sorts: &[u64], arguments: &[u64], steps: &[u64]) -> Result<Value, Refusal> {
    let arguments = sorted_arguments(sorts, arguments)?;
    let refusal = |place: usize, cause| Refusal {
        number: 19,
        place: place as u64,
        cause,
    };
    let mut stack = Vec::new();
    for (place, numbers) in steps.chunks(STEP).enumerate() {
        let value = one_step(&arguments, numbers, &mut stack);
        let value = value.map_err(|cause| refusal(place, cause))?;
        if stack.len() == MOST_VALUES {
            return Err(refusal(place, Cause::Full));
        }
        stack.push(value);
    }
    match stack[..] {
        [value] => Ok(value),
        _ => Err(refusal(steps.len() / STEP, Cause::End(stack.len()))),
    }
}

/// "with answer 20 arguments of wrong count or range for the list of sorts given along ..., tested before the steps".
fn sorted_arguments(sorts: &[u64], arguments: &[u64]) -> Result<Vec<Value>, Refusal> {
    let refusal = |place: usize, cause| Refusal {
        number: 20,
        place: place as u64,
        cause,
    };
    if sorts.len() != arguments.len() {
        return Err(refusal(arguments.len(), Cause::Count));
    }
    let pairs = sorts.iter().zip(arguments).enumerate();
    let value = |(index, (&width, &number))| {
        let sort = sort(width).ok_or(refusal(index, Cause::NoSort))?;
        match number <= sort.greatest() {
            true => Ok(Value::new(sort, number)),
            false => Err(refusal(index, Cause::Range)),
        }
    };
    pairs.map(value).collect()
}

/// The value that a step puts on the stack, its operands taken from there; why it is refused: "malformed or cut short, finds too few or wrongly sorted operands".
fn one_step(arguments: &[Value], numbers: &[u64], stack: &mut Vec<Value>) -> Result<Value, Cause> {
    match *numbers {
        [ARGUMENT, number, 0, 0] => {
            let index = usize::try_from(number).unwrap_or(usize::MAX);
            arguments.get(index).copied().ok_or(Cause::NoArgument)
        }
        [CONSTANT, value, width, 0] => {
            let sort = sort(width).filter(|sort| value <= sort.greatest());
            Ok(Value::new(sort.ok_or(Cause::NoConstant)?, value))
        }
        [APPLY, number, third, fourth] => applied(number, third, fourth, stack),
        [_, _, _, _] => Err(Cause::Malformed),
        _ => Err(Cause::CutShort),
    }
}

/// "apply 3, operator's number in the table, operand count (extract: i, j)": the value of the operator at the newest values, which leave the stack.
fn applied(number: u64, third: u64, fourth: u64, stack: &mut Vec<Value>) -> Result<Value, Cause> {
    let index = usize::try_from(number).unwrap_or(usize::MAX);
    let operator = OPERATORS.get(index).ok_or(Cause::NoOperator)?;
    let part = operator.name == "extract";
    if !part && fourth != 0 {
        return Err(Cause::Malformed);
    }
    let count = if part { 1 } else { third };
    let count = usize::try_from(count).unwrap_or(usize::MAX);
    if !operator.takes(count) {
        return Err(Cause::Operands);
    }
    let below = stack
        .len()
        .checked_sub(count)
        .ok_or(Cause::TooFew(stack.len()))?;
    let operands = stack.split_off(below);
    let sorts: Vec<Sort> = operands.iter().map(|operand| operand.sort()).collect();
    let [i, j] = [third, fourth].map(|one| u32::try_from(one).unwrap_or(u32::MAX));
    let sound = operator.sort(part.then_some((i, j)), &sorts);
    sound.ok_or(Cause::WronglySorted(sorts))?;
    Ok(match part {
        true => extract(i, j, operands[0]),
        false => apply(operator.name, &operands),
    })
}
