//! The run of a list of steps: the outcome is the library's runner's, and why a step is refused is said by the simple one.

use crate::answers::{counted, verdict};
use crate::facts::Located;
use crate::failure::Failure;
use crate::listing::{valued, words};
use crate::points::{located_numbers, Numbers};
use crate::source::Source;
use crate::text::write_source;
use simple::eval::Value;
use simple::operators::Sort;
use simple::steps::{sort, Cause, STEP};
use std::io::{self, Write};
use sverdhyll::{Answer, Library, Ran};

/// What is to be run.
#[derive(Clone, Debug, PartialEq, Eq)]
pub struct Wanted {
    pub steps: Source,
    pub sorts: Vec<u64>,
    pub arguments: Vec<u64>,
    pub json: bool,
}

/// A run and what there is to say of it.
pub struct Outcome {
    pub answer: Answer,
    /// The list, and where its numbers stand.
    pub list: Numbers,
    /// The value, after answer 0.
    pub value: Option<Value>,
    /// Where the refused step stands.
    pub located: Option<Located>,
    /// The answer in a sentence.
    pub sentence: String,
}

/// Runs a list.
pub fn run(library: &mut Library, wanted: &Wanted) -> Result<Outcome, Failure> {
    let list = located_numbers(library, &wanted.steps, "steps")?;
    let ran = library.run(&wanted.sorts, &wanted.arguments, &list.numbers)?;
    let value = valued_by(&ran);
    let located = match ran.answer.number {
        19 => located(library, &list, ran.answer.place)?,
        _ => None,
    };
    Ok(Outcome {
        sentence: sentence(wanted, &list, &ran, value),
        answer: ran.answer,
        list,
        value,
        located,
    })
}

/// The value that a run ends with.
fn valued_by(ran: &Ran) -> Option<Value> {
    let sort = sort(ran.sort).filter(|_| ran.answer.number == 0)?;
    Some(Value::new(sort, ran.value))
}

/// Where the first number of a step stands; nowhere where the list has ended there.
fn located(library: &mut Library, list: &Numbers, step: u64) -> Result<Option<Located>, Failure> {
    let index = usize::try_from(step).ok();
    let index = index.and_then(|index| index.checked_mul(STEP));
    let first = index.and_then(|index| list.spans.get(index)).cloned();
    let Some(first) = first else {
        return Ok(None);
    };
    let position = library.position(&list.text.bytes, first.start)?;
    Ok(Some(Located::new(&list.text, first, position)))
}

/// The outcome in a sentence.
fn sentence(wanted: &Wanted, list: &Numbers, ran: &Ran, value: Option<Value>) -> String {
    let place = ran.answer.place;
    if let Some(value) = value {
        return format!(
            "the list ends with the value {}, of the sort {}",
            valued(value),
            value.sort()
        );
    }
    let run = simple::steps::run(&wanted.sorts, &wanted.arguments, &list.numbers);
    let cause = run.err().map(|refusal| refusal.cause);
    match (ran.answer.number, cause) {
        (20, Some(cause)) => argument(wanted, place as usize, &cause),
        (19, Some(Cause::End(values))) => {
            let (steps, values) = (counted(place, "step"), counted(values as u64, "value"));
            format!("the list ends after {steps} with {values} on the stack, and must end with one")
        }
        (19, Some(cause)) => {
            let step = list.numbers[STEP * place as usize..].chunks(STEP).next();
            format!("step {place} {}", refused(step.unwrap_or_default(), &cause))
        }
        (number, _) => format!("answer {number} at {place}"),
    }
}

/// Why arguments are refused.
fn argument(wanted: &Wanted, index: usize, cause: &Cause) -> String {
    let (sorts, arguments) = (&wanted.sorts, &wanted.arguments);
    match (cause, sorts.get(index), arguments.get(index)) {
        (Cause::NoSort, Some(sort), _) => {
            format!("sort {index} is {sort}: a sort is 0 for Bool, or a width from 1 to 64")
        }
        (_, Some(&width), Some(argument)) if sorts.len() == arguments.len() => {
            let sort = sort(width).unwrap_or(Sort::Bool);
            format!("argument {index} is {argument}, which is no value of {sort}")
        }
        _ => {
            let arguments = counted(arguments.len() as u64, "argument");
            format!("{arguments} for {}", counted(sorts.len() as u64, "sort"))
        }
    }
}

/// Why a step is refused.
fn refused(step: &[u64], cause: &Cause) -> String {
    let does = words(step, &[]);
    match cause {
        Cause::CutShort => format!(
            "is cut short: it has {} of 4",
            counted(step.len() as u64, "number")
        ),
        Cause::NoArgument => format!("({does}): there is no such argument"),
        Cause::NoConstant => format!("({does}): no sort has this value"),
        Cause::NoOperator => format!(
            "applies operator {}, which the table does not have",
            step[1]
        ),
        Cause::Operands => format!("({does}): the operator does not take so many operands"),
        Cause::TooFew(values) => format!(
            "({does}) finds {} on the stack",
            counted(*values as u64, "value")
        ),
        Cause::WronglySorted(sorts) => {
            let sorts: Vec<String> = sorts.iter().map(Sort::to_string).collect();
            format!(
                "({does}) finds operands of the wrong sorts: {}",
                sorts.join(", ")
            )
        }
        Cause::Full => format!("({does}) would put a 257th value on the stack"),
        _ => "is malformed: a step begins with 1, 2 or 3, and its unused numbers are 0".to_string(),
    }
}

impl Outcome {
    /// The name of the list, with the place of the refused step where there is one.
    fn named(&self) -> String {
        match &self.located {
            Some(located) => located.to_string(),
            None => self.list.text.name.clone(),
        }
    }

    /// The exit status of the command.
    pub fn status(&self) -> u8 {
        verdict(self.answer.number).status()
    }

    /// Writes the one line that says the outcome, and below it the line of a refused step, which has so many columns.
    pub fn write(&self, columns: usize, to: &mut impl Write) -> io::Result<()> {
        let number = self.answer.number;
        let word = verdict(number).word();
        writeln!(
            to,
            "{}: {word} (answer {number}): {}",
            self.named(),
            self.sentence
        )?;
        match &self.located {
            Some(located) => write_source(located, columns, to),
            None => Ok(()),
        }
    }
}
