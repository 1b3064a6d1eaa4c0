//! What is known of a check once the checker has answered: the same facts for people and for programs.

use crate::derivation::{steps, Step};
use crate::evaluation::{differing, is_signed};
use crate::evidence::Evidence;
use crate::failure::Failure;
use crate::guards::Guard;
use crate::listing::Listed;
use crate::notes::{cause, Cause, Hint};
use crate::place::{place, Place};
use crate::refute::Claim;
use crate::run::{Given, Run};
use crate::source::Text;
use crate::stated::Stated;
use simple::eval::Value;
use simple::grammar::Sorted;
use std::fmt;
use std::ops::Range;
use sverdhyll::{Answer, Library, Position, LIST_LENGTH, UNUSED};

/// A place with the name of its text.
pub struct Located {
    pub file: String,
    pub place: Place,
}

impl Located {
    /// The place of some bytes of a text, which stands there.
    pub fn new(text: &Text, at: Range<usize>, position: Position) -> Located {
        Located {
            file: text.name.clone(),
            place: place(&text.bytes, at, position),
        }
    }
}

impl fmt::Display for Located {
    /// The place as `file:line:column`.
    fn fmt(&self, to: &mut fmt::Formatter) -> fmt::Result {
        let Position { line, column, .. } = self.place.position;
        write!(to, "{}:{line}:{column}", self.file)
    }
}

/// A sentence that helps to find the fault, with the place that it speaks of.
pub struct Note {
    pub message: String,
    pub located: Option<Located>,
}

/// A function with its body and its derivation.
pub struct Derived {
    pub name: String,
    pub start: String,
    pub body: String,
    pub steps: Vec<Step>,
    /// The total weight of its rules, as the checker gives it.
    pub weight: u64,
}

/// A constraint that is false, or a constraint or assumption that was not begun, and the point.
pub struct Judged {
    pub stated: Stated,
    /// Where its command stands in the script.
    pub position: Position,
    pub text: String,
    /// The variables with their values.
    pub point: Vec<(String, Value)>,
    /// The texts and values of the first two neighbours that differ, where the constraint is a false equation.
    pub sides: Option<[(String, Value); 2]>,
    /// Whether it has a signed operator.
    pub signed: bool,
}

/// All facts of one check.
pub struct Facts {
    pub given: Given,
    pub answer: Answer,
    /// At how many points the checker was asked.
    pub done: u64,
    /// The place that the answer names, where it is one in a text.
    pub located: Option<Located>,
    /// After 7, where the name that is taken was declared.
    pub declared: Option<Located>,
    /// The cause in a sentence, where the command knows it.
    pub cause: Option<String>,
    /// What else helps to find the fault.
    pub notes: Vec<Note>,
    /// The function without derivation.
    pub function: Option<String>,
    /// After 0, 14 and 15.
    pub derived: Vec<Derived>,
    /// After 14 and 15.
    pub judged: Option<Judged>,
    /// After 0: how often the left side of each `=>` held, and where it stands in the script.
    pub guards: Vec<(Guard, Position)>,
    /// What a solver that was asked says.
    pub claim: Option<Claim>,
    /// The steps that were asked for, after 0.
    pub listed: Option<Listed>,
    /// The evidence file, of a call that writes or checks one.
    pub evidence: Option<Evidence>,
    pub strict: bool,
}

/// Gathers what there is to say once the checker has answered.
pub fn gather(
    library: &mut Library,
    given: Given,
    run: Run,
    strict: bool,
) -> Result<Facts, Failure> {
    let mut answer = run.answer;
    if answer.number == 1 {
        answer.place = whole_length(&given, answer);
    }
    let mut cause = cause(&given, answer, &run.point);
    Ok(Facts {
        located: located(library, &given, answer)?,
        declared: declared(library, &given, answer)?,
        cause: cause.sentence.take(),
        notes: notes(library, &given, answer, cause)?,
        function: function_of(&given, answer),
        derived: derived(&given, answer, &run.area)?,
        judged: judged(library, &given, answer, &run.point)?,
        done: run.done,
        guards: guards(library, &given, run.guards)?,
        claim: run.claim,
        listed: None,
        evidence: None,
        strict,
        answer,
        given,
    })
}

/// The length of the text that is too long, of which the checker was lent a part that is too long as well.
fn whole_length(given: &Given, answer: Answer) -> u64 {
    match answer.text {
        0 => given.script.length,
        1 => given.response.length,
        _ => answer.place,
    }
}

/// The place of some bytes of a text, which stands where the checker's enquiry says.
fn located_at(library: &mut Library, text: &Text, at: Range<usize>) -> Result<Located, Failure> {
    let position = library.position(&text.bytes, at.start)?;
    Ok(Located::new(text, at, position))
}

/// The place that answers 2 to 9, 12, 13 and 16 name, which stands where the answer itself says; for a point number, by the enquiry.
fn located(
    library: &mut Library,
    given: &Given,
    answer: Answer,
) -> Result<Option<Located>, Failure> {
    let at = answer.place as usize;
    if answer.number == 16 {
        let number = given.points.written(at);
        let located = number.map(|(text, at)| located_at(library, text, at));
        return located.transpose();
    }
    let text = spoken_of(given, answer);
    let position = answer.position();
    Ok(position.map(|position| Located::new(text, at..position.end as usize, position)))
}

/// The place of the declaration that the second number of answer 7 names, where a name is taken.
fn declared(
    library: &mut Library,
    given: &Given,
    answer: Answer,
) -> Result<Option<Located>, Failure> {
    let at = answer.second as usize;
    if answer.number != 7 || at == 0 {
        return Ok(None);
    }
    let position = library.position(&given.script.bytes, at)?;
    let word = at..position.end as usize;
    Ok(Some(Located::new(&given.script, word, position)))
}

/// The text that an answer speaks of, of the two.
fn spoken_of(given: &Given, answer: Answer) -> &Text {
    match answer.text {
        0 => &given.script,
        _ => &given.response,
    }
}

/// The name of the function that answer 13 names.
fn function_of(given: &Given, answer: Answer) -> Option<String> {
    let function = given.read.synthesized.get(answer.second as usize);
    function
        .filter(|_| answer.number == 13)
        .map(|one| one.name.clone())
}

/// The notes of a cause, with their places in the text that the answer speaks of.
fn notes(
    library: &mut Library,
    given: &Given,
    answer: Answer,
    cause: Cause,
) -> Result<Vec<Note>, Failure> {
    let text = spoken_of(given, answer);
    let note = |hint: Hint| {
        let at = hint.at.map(|at| first_line(&text.bytes, at));
        let located = at.map(|at| located_at(library, text, at)).transpose()?;
        Ok(Note {
            message: hint.message,
            located,
        })
    };
    cause.hints.into_iter().map(note).collect()
}

/// What of a part of a text stands in its first line.
fn first_line(text: &[u8], at: Range<usize>) -> Range<usize> {
    let mut lines = text[at.clone()].split(|&byte| matches!(byte, b'\r' | b'\n'));
    at.start..at.start + lines.next().map_or(0, <[u8]>::len)
}

/// The left sides of `=>`, each with where it stands in the script.
fn guards(
    library: &mut Library,
    given: &Given,
    guards: Vec<Guard>,
) -> Result<Vec<(Guard, Position)>, Failure> {
    let placed = guards.into_iter().map(|guard| {
        let position = library.position(&given.script.bytes, guard.place)?;
        Ok((guard, position))
    });
    placed.collect()
}

/// The derivation of each function, as the area shows it.
fn derived(given: &Given, answer: Answer, area: &[u16]) -> Result<Vec<Derived>, Failure> {
    if !matches!(answer.number, 0 | 14 | 15) {
        return Ok(Vec::new());
    }
    let lists = area.chunks(LIST_LENGTH).zip(answer.weights);
    let functions = given.read.synthesized.iter().zip(&given.bodies).zip(lists);
    let derived = functions.map(|((function, body), (list, weight))| {
        let shown = list
            .split(|&entry| entry == UNUSED)
            .next()
            .unwrap_or_default();
        let steps = steps(function, body, shown);
        let failed = |why| {
            Failure(format!(
                "the derivation of {} cannot be followed: {why}",
                function.name
            ))
        };
        Ok(Derived {
            name: function.name.clone(),
            start: function.grammar.nonterminals[0].name.clone(),
            body: body.to_string(),
            steps: steps.map_err(failed)?,
            weight,
        })
    });
    derived.collect()
}

/// The constraint or assumption and the point that answers 14 and 15 name.
fn judged(
    library: &mut Library,
    given: &Given,
    answer: Answer,
    numbers: &[u64],
) -> Result<Option<Judged>, Failure> {
    let stated = Stated::named(answer);
    let found = stated.and_then(|stated| Some((stated, stated.within(&given.read)?)));
    let Some((stated, found)) = found else {
        return Ok(None);
    };
    let sides = differing(&given.read, &given.bodies, &found.term, numbers);
    let sides = sides.filter(|_| answer.number == 14);
    Ok(Some(Judged {
        stated,
        position: library.position(&given.script.bytes, found.place)?,
        text: found.term.to_string(),
        point: point(&given.read.variables, numbers),
        sides: sides.map(|sides| sides.map(|(side, value)| (side.to_string(), value))),
        signed: is_signed(&found.term),
    }))
}

/// The variables with their values at a point.
fn point(variables: &[Sorted], numbers: &[u64]) -> Vec<(String, Value)> {
    let value = |(variable, &number): (&Sorted, &u64)| {
        (variable.name.clone(), Value::new(variable.sort, number))
    };
    variables.iter().zip(numbers).map(value).collect()
}
