//! The steps of a body for people: which function is meant, and what each step does in words.

use crate::failure::Failure;
use simple::eval::Value;
use simple::grammar::Sorted;
use simple::operators::OPERATORS;
use simple::script::Script;
use simple::steps::{sort, APPLY, ARGUMENT, CONSTANT, STEP};
use sverdhyll::STEPS_LENGTH;

/// A function by its name or its number from 0.
#[derive(Clone, Debug, PartialEq, Eq)]
pub enum Chosen {
    Name(String),
    Number(u64),
}

/// The steps of a function's body.
pub struct Listed {
    pub name: String,
    pub number: u64,
    pub arguments: Vec<Sorted>,
    pub numbers: Vec<u64>,
}

/// The number of the function whose steps are asked for: the only one, where none is named.
pub fn number(script: &Script, chosen: Option<&Chosen>) -> Result<u64, Failure> {
    let names = script.synthesized.iter().map(|one| one.name.as_str());
    let names: Vec<&str> = names.collect();
    let all = names.join(", ");
    match chosen {
        Some(Chosen::Number(number)) => Ok(*number),
        Some(Chosen::Name(name)) => {
            let number = names.iter().position(|one| one == name);
            let missing = || Failure(format!("the script has no function {name}, it has: {all}"));
            Ok(number.ok_or_else(missing)? as u64)
        }
        None if names.len() == 1 => Ok(0),
        None => Err(Failure(format!(
            "the script has {} functions: --function says whose steps are wanted: {all}",
            names.len()
        ))),
    }
}

/// An area for steps, which no step was written to.
pub fn area() -> Vec<u64> {
    vec![0; STEPS_LENGTH]
}

impl Listed {
    /// The steps that stand in an area, of a function that the script has.
    pub fn new(script: &Script, number: u64, area: &[u64], count: usize) -> Option<Listed> {
        let function = script.synthesized.get(usize::try_from(number).ok()?)?;
        Some(Listed {
            name: function.name.clone(),
            number,
            arguments: function.arguments.clone(),
            numbers: area.get(..STEP * count)?.to_vec(),
        })
    }

    /// Its steps, each in words and in numbers.
    pub fn lines(&self) -> Vec<(String, &[u64])> {
        let steps = self.numbers.chunks(STEP);
        steps
            .map(|step| (words(step, &self.arguments), step))
            .collect()
    }

    /// How many values are on the stack at most.
    pub fn height(&self) -> u64 {
        let (mut height, mut most) = (0_u64, 0);
        for step in self.numbers.chunks(STEP) {
            height = (height + 1).saturating_sub(taken(step));
            most = most.max(height);
        }
        most
    }
}

/// How many values a step takes from the stack.
fn taken(step: &[u64]) -> u64 {
    match *step {
        [APPLY, number, ..] if named(number) == Some("extract") => 1,
        [APPLY, _, count, _] => count,
        _ => 0,
    }
}

/// The name of the operator of a number.
fn named(number: u64) -> Option<&'static str> {
    let index = usize::try_from(number).ok()?;
    OPERATORS.get(index).map(|operator| operator.name)
}

/// What a step does, in words; its arguments have names where they are known.
pub fn words(step: &[u64], arguments: &[Sorted]) -> String {
    match *step {
        [ARGUMENT, number, 0, 0] => {
            let index = usize::try_from(number).unwrap_or(usize::MAX);
            match arguments.get(index) {
                Some(one) => format!("push argument {number}, {} of {}", one.name, one.sort),
                None => format!("push argument {number}"),
            }
        }
        [CONSTANT, number, width, 0] => match sort(width) {
            Some(sort) if number <= sort.greatest() => {
                format!("push constant {}", valued(Value::new(sort, number)))
            }
            _ => format!("push constant {number} of width {width}"),
        },
        [APPLY, number, third, fourth] => match named(number) {
            Some("extract") => format!("apply (_ extract {third} {fourth}) to the newest value"),
            Some(name) if fourth == 0 => format!("apply {name} to {}", newest(third)),
            _ => "no step".to_string(),
        },
        _ => "no step".to_string(),
    }
}

/// The newest values of the stack.
fn newest(count: u64) -> String {
    match count {
        1 => "the newest value".to_string(),
        _ => format!("the {count} newest values"),
    }
}

/// A value as the command writes it, one of bits with its decimal number beside it.
pub fn valued(value: Value) -> String {
    match value {
        Value::Bool(_) => value.to_string(),
        Value::Bits { bits, .. } => format!("{value} ({bits})"),
    }
}

#[cfg(test)]
mod tests {
    use super::*;

    #[test]
    fn steps_in_words() {
        for (step, said) in [
            ([1, 0, 0, 0], "push argument 0"),
            ([1, 0, 1, 0], "no step"),
            ([2, 15, 8, 0], "push constant 0x0f (15)"),
            ([2, 1, 0, 0], "push constant true"),
            ([2, 256, 8, 0], "push constant 256 of width 8"),
            ([2, 1, 65, 0], "push constant 1 of width 65"),
            ([3, 13, 2, 0], "apply bvadd to the 2 newest values"),
            ([3, 0, 1, 0], "apply not to the newest value"),
            ([3, 22, 15, 0], "apply (_ extract 15 0) to the newest value"),
            ([3, 34, 2, 0], "no step"),
            ([3, 13, 2, 1], "no step"),
            ([9, 9, 9, 9], "no step"),
        ] {
            assert_eq!(words(&step, &[]), said, "{step:?}");
        }
        assert_eq!(words(&[2, 1], &[]), "no step");
    }

    #[test]
    fn the_height_of_the_stack() {
        let listed = |numbers: &[u64]| Listed {
            name: "f".to_string(),
            number: 0,
            arguments: Vec::new(),
            numbers: numbers.to_vec(),
        };
        let sum = [1, 0, 0, 0, 2, 15, 8, 0, 3, 13, 2, 0];
        assert_eq!(listed(&sum).height(), 2);
        assert_eq!(listed(&[1, 0, 0, 0, 3, 22, 15, 0]).height(), 1);
        assert_eq!(listed(&sum[..4]).lines()[0].0, "push argument 0");
    }

    #[test]
    fn the_function_that_is_meant() {
        let script = "(set-logic BV)(synth-fun f () Bool ((A Bool)) ((A Bool (true))))(synth-fun g () Bool ((A Bool)) ((A Bool (true))))(check-synth)";
        let script = simple::script::read(script.as_bytes()).expect("a sound script");
        let name = |name: &str| Chosen::Name(name.to_string());
        assert_eq!(number(&script, Some(&name("g"))), Ok(1));
        assert_eq!(number(&script, Some(&Chosen::Number(7))), Ok(7));
        let missing = "the script has no function h, it has: f, g";
        assert_eq!(
            number(&script, Some(&name("h"))),
            Err(Failure(missing.to_string()))
        );
        let several = "the script has 2 functions: --function says whose steps are wanted: f, g";
        assert_eq!(number(&script, None), Err(Failure(several.to_string())));
    }
}
