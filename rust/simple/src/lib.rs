//! A simple reference checker, written straight from document 01 and the requests that change it. Each function names the sentence that it follows.
//!
//! `check` is the whole of it, and `read` what the two texts answer by themselves. Its parts are there for other programs that read the same texts: the words of
//! a text (`words`), their ends with lines and columns (`places`), trees of words (`tree`), sorts (`operators`), the forms of commands, terms and constants
//! (`commands`, `terms`, `constants`), what a script and a response say (`script`, `response`, `grammar`), values and costs of terms (`eval`), the steps of
//! a body with the controller that runs them (`steps`), and the evidence file with its check (`evidence`).

pub mod commands;
pub mod constants;
pub mod eval;
pub mod evidence;
pub mod generate;
pub mod grammar;
pub mod operators;
pub mod places;
pub mod replay;
pub mod response;
pub mod script;
mod signed;
pub mod steps;
pub mod terms;
pub mod tree;
pub mod words;

use eval::Outcome;
pub use places::{position, Position};
pub use terms::operands;
pub use words::word;

/// "Allow 65,536 bytes ... of script".
pub const MOST_SCRIPT_BYTES: usize = 65_536;
/// "response 8,192".
pub const MOST_RESPONSE_BYTES: usize = 8_192;
/// "1,024 point numbers".
pub const MOST_POINT_NUMBERS: usize = 1_024;
/// "a lent area of exactly 32,768 16-bit numbers".
pub const AREA_LENGTH: usize = 32_768;
/// "Function k's list starts at 4,096·k".
pub const LIST_LENGTH: usize = 4_096;
/// "every entry of the area that no list uses is 65,535".
pub const UNUSED: u16 = 65_535;
/// "8 synthesized functions".
pub const MOST_SYNTHESIZED: usize = 8;
/// "Answer 15 numbers assumptions from 64."
pub const FIRST_ASSUMPTION: usize = 64;

/// The text "script" of an answer.
const SCRIPT: u8 = 0;
/// The text "response" of an answer.
const RESPONSE: u8 = 1;
/// The text "points" of an answer.
const POINTS: u8 = 2;
/// The text "none or the area" of an answer.
const NONE: u8 = 3;

/// An answer by document 01's table, where the word at its place ends, with the place's line and column, and the weights: "The total is reported for each
/// function, 0 where none is shown."
#[derive(Clone, Copy, Debug, Default, PartialEq, Eq)]
pub struct Answer {
    pub number: u8,
    pub text: u8,
    pub place: u64,
    pub second: u64,
    pub units: u64,
    pub end: u64,
    pub line: u64,
    pub column: u64,
    pub weights: [u64; MOST_SYNTHESIZED],
}

impl Answer {
    /// An answer about no text.
    fn about_none(number: u8, place: u64) -> Answer {
        Answer {
            number,
            text: NONE,
            place,
            ..Answer::default()
        }
    }
}

/// The number and place of a fault in a text, and its second number: where a name that is taken was declared, else 0.
#[derive(Clone, Copy, Debug, PartialEq, Eq)]
pub struct Fault {
    pub number: u8,
    pub place: usize,
    pub second: usize,
}

impl Fault {
    /// A fault of a number at a place.
    fn new(number: u8, place: usize) -> Fault {
        Fault {
            number,
            place,
            second: 0,
        }
    }

    /// The answer for a fault in a text; its units are 0, and its place is still to be located.
    fn in_text(self, text: u8) -> Answer {
        Answer {
            number: self.number,
            text,
            place: self.place as u64,
            second: self.second as u64,
            ..Answer::default()
        }
    }
}

/// "A checker that takes a script, a response, a list of points and a budget, and answers."
pub fn check(
    script: &[u8],
    response: &[u8],
    points: &[u64],
    budget: u64,
    area: &mut [u16],
) -> Answer {
    if area.len() == AREA_LENGTH {
        area.fill(UNUSED);
    }
    match checked(script, response, points, budget, area) {
        Ok(answer) => answer,
        Err(refusal) => located(refusal, script, response),
    }
}

/// "the texts' own answers, 1 to 12, else 0": what a script and a response are refused for, and 0 about no text where neither is.
pub fn read(script: &[u8], response: &[u8]) -> Answer {
    match told(script, response) {
        Ok(_) => Answer::about_none(0, 0),
        Err(refusal) => refusal,
    }
}

/// What a script and a response say, or the answer of the one that is refused.
fn told(script: &[u8], response: &[u8]) -> Result<(script::Script, Vec<tree::Tree>), Answer> {
    let said = texts_fit(script, response).and_then(|()| texts_said(script, response));
    said.map_err(|refusal| located(refusal, script, response))
}

/// "Answers 2 to 9, 12 and 13 carry the new numbers; ... the other answers carry 0."
fn located(answer: Answer, script: &[u8], response: &[u8]) -> Answer {
    let text = match (answer.number, answer.text) {
        (2..=9 | 12 | 13, SCRIPT) => script,
        (2..=9 | 12 | 13, RESPONSE) => response,
        _ => return answer,
    };
    let Position { end, line, column } = position(text, answer.place as usize);
    Answer {
        end,
        line,
        column,
        ..answer
    }
}

/// "Order: 1 (script, response, points, area); ..., then 13 (first such function), 16 (length first), and evaluation."
fn checked(
    script: &[u8],
    response: &[u8],
    points: &[u64],
    budget: u64,
    area: &mut [u16],
) -> Result<Answer, Answer> {
    texts_fit(script, response)?;
    lent_fit(points, area)?;
    let (script, bodies) = texts_said(script, response)?;
    let derivations = derivations(&script, &bodies)?;
    if let Some(place) = eval::points_fault(points, &script.variables) {
        return Err(Fault::new(16, place).in_text(POINTS));
    }
    let mut weights = [0; MOST_SYNTHESIZED];
    let shown = area.chunks_mut(LIST_LENGTH).zip(&mut weights);
    for ((list, weight), derivation) in shown.zip(&derivations) {
        list[..derivation.rules.len()].copy_from_slice(&derivation.rules);
        *weight = derivation.weight;
    }
    let (outcome, units) = eval::evaluate(&script, &bodies, points, budget);
    Ok(last_answer(outcome, units, weights))
}

/// "1 (script, response, ...)".
fn texts_fit(script: &[u8], response: &[u8]) -> Result<(), Answer> {
    let (script, response) = (script.len(), response.len());
    fits(SCRIPT, script, script <= MOST_SCRIPT_BYTES)?;
    fits(RESPONSE, response, response <= MOST_RESPONSE_BYTES)
}

/// "1 (..., points, area)".
fn lent_fit(points: &[u64], area: &[u16]) -> Result<(), Answer> {
    fits(POINTS, points.len(), points.len() <= MOST_POINT_NUMBERS)?;
    fits(NONE, area.len(), area.len() == AREA_LENGTH)
}

/// 1 for what does not fit: "its length".
fn fits(text: u8, length: usize, fits: bool) -> Result<(), Answer> {
    match fits {
        true => Ok(()),
        false => Err(Fault::new(1, length).in_text(text)),
    }
}

/// "script words ...; commands ...; response words likewise; 10 and 11 ...; the response's commands likewise": what the script says, and the bodies that the
/// response gives.
fn texts_said(script: &[u8], response: &[u8]) -> Result<(script::Script, Vec<tree::Tree>), Answer> {
    let script = script::read(script).map_err(|fault| fault.in_text(SCRIPT))?;
    let bodies = response::read(response, &script).map_err(|fault| fault.in_text(RESPONSE))?;
    Ok((script, bodies))
}

/// The derivation of each body, or 13 for the first function without one: "body's first word; function".
fn derivations(
    script: &script::Script,
    bodies: &[tree::Tree],
) -> Result<Vec<grammar::Derivation>, Answer> {
    let mut derivations = Vec::new();
    for (index, (function, body)) in script.synthesized.iter().zip(bodies).enumerate() {
        match grammar::derivation(&function.grammar, &function.arguments, body) {
            Some(derivation) => derivations.push(derivation),
            None => {
                return Err(Answer {
                    second: index as u64,
                    ..Fault::new(13, body.start()).in_text(RESPONSE)
                })
            }
        }
    }
    Ok(derivations)
}

/// The answer 0, 14 or 15 with "the units spent: the summed cost of evaluations done, a false one included", and the weights of what is shown.
fn last_answer(outcome: Outcome, units: u64, weights: [u64; MOST_SYNTHESIZED]) -> Answer {
    let (number, text, place, second) = match outcome {
        Outcome::Accepted { held } => (0, NONE, 0, held),
        Outcome::False { point, constraint } => (14, POINTS, point, constraint),
        Outcome::BudgetEnded { point, number } => (15, POINTS, point, number),
    };
    Answer {
        number,
        text,
        place: place as u64,
        second: second as u64,
        units,
        weights,
        ..Answer::default()
    }
}
