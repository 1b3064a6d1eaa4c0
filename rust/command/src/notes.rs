//! What the command finds of an answer's cause by its own reading: a sentence that knows it, and notes behind the answer. The verdict, its number and its place
//! are the checker's, and nothing here takes part in them.

mod defined;
mod encodings;
mod grammars;
mod headers;
mod names;
mod near;
mod parts;
mod printed;
mod shapes;
mod sorts;
mod values;

use crate::derivation::stranger;
use crate::place::unclosed;
use crate::run::Given;
use simple::response::MOST_WORDS as MOST_RESPONSE_WORDS;
use simple::script::{before_fault, Script, MOST_WORDS as MOST_SCRIPT_WORDS};
use simple::tree::{trees, Tree};
use simple::words;
use std::ops::Range;
use sverdhyll::Answer;

/// A sentence that helps to find the fault, and the words that it speaks of in the answer's text.
#[derive(Clone, Debug, PartialEq, Eq)]
pub struct Hint {
    pub message: String,
    pub at: Option<Range<usize>>,
}

impl Hint {
    /// A hint at a part of the text.
    fn at(tree: &Tree, message: impl Into<String>) -> Hint {
        Hint::within(tree.start()..tree.end(), message)
    }

    /// A hint at some bytes of the text.
    fn within(at: Range<usize>, message: impl Into<String>) -> Hint {
        let message = message.into();
        Hint {
            message,
            at: Some(at),
        }
    }

    /// A hint that has no place.
    fn general(message: impl Into<String>) -> Hint {
        let message = message.into();
        Hint { message, at: None }
    }
}

/// What is found of an answer's cause.
#[derive(Debug, Default)]
pub struct Cause {
    /// What the first line says, where the cause is known.
    pub sentence: Option<String>,
    pub hints: Vec<Hint>,
}

impl Cause {
    /// A cause that the first line says.
    fn said(sentence: impl Into<String>) -> Cause {
        Cause {
            sentence: Some(sentence.into()),
            hints: Vec::new(),
        }
    }
}

impl From<Option<Hint>> for Cause {
    /// A cause that a hint says.
    fn from(hint: Option<Hint>) -> Cause {
        Cause {
            sentence: None,
            hints: hint.into_iter().collect(),
        }
    }
}

/// The text that an answer speaks of.
struct Reading<'a> {
    bytes: &'a [u8],
    in_response: bool,
    /// The place of the answer.
    place: usize,
    /// Its second number.
    second: usize,
    trees: &'a [Tree],
    /// The command or definition that holds the place, if one does.
    faulty: Option<&'a Tree>,
    /// What the script says before it.
    script: &'a Script,
}

/// What the command finds of an answer's cause; `point` is the point of answer 14.
pub fn cause(given: &Given, answer: Answer, point: &[u64]) -> Cause {
    if answer.number == 14 {
        return Cause {
            sentence: None,
            hints: values::hints(given, answer.second as usize, point),
        };
    }
    if answer.number == 18 {
        return defined::hint(given, answer.place).into();
    }
    let (text, most_words) = match answer.text {
        0 => (&given.script, MOST_SCRIPT_WORDS),
        1 => (&given.response, MOST_RESPONSE_WORDS),
        _ => return Cause::default(),
    };
    let trees = words::read(&text.bytes, most_words).map(trees);
    let trees = trees.unwrap_or_default();
    let (so_far, fault) = before_fault(&trees);
    let reading = Reading {
        bytes: &text.bytes,
        in_response: answer.text == 1,
        place: answer.place as usize,
        second: answer.second as usize,
        trees: &trees,
        faulty: match answer.text {
            0 => fault.map(|(tree, _)| tree),
            _ => definition_at(&trees, answer.place as usize),
        },
        script: match answer.text {
            0 => &so_far,
            _ => &given.read,
        },
    };
    let mut cause = reading.cause(given, answer);
    cause.hints.extend(encodings::hint(&text.bytes));
    cause
}

/// The item of a response's list that holds a place.
fn definition_at(trees: &[Tree], place: usize) -> Option<&Tree> {
    let items = trees.first()?.items()?;
    let holds = |item: &&Tree| (item.start()..item.end()).contains(&place);
    items.iter().find(holds)
}

impl Reading<'_> {
    /// The cause of an answer in the text.
    fn cause(&self, given: &Given, answer: Answer) -> Cause {
        match answer.number {
            2 => printed::hint(self)
                .or_else(|| printed::message(self))
                .into(),
            3 => self.unclosed().into(),
            5 | 6 => printed::hint(self)
                .or_else(|| shapes::hint(self, answer.number))
                .into(),
            7 => names::cause(self).unwrap_or_default(),
            8 => sorts::cause(self).unwrap_or_default(),
            9 => grammars::cause(self).unwrap_or_default(),
            12 => headers::cause(self).unwrap_or_default(),
            13 => self.underivable(given, answer.second as usize),
            _ => Cause::default(),
        }
    }

    /// The first bracket that stays open, where the text ends too early.
    fn unclosed(&self) -> Option<Hint> {
        let at = unclosed(self.bytes).filter(|_| self.place == self.bytes.len())?;
        Some(Hint::within(at..at + 1, "this bracket is never closed"))
    }

    /// The smallest part of a body that is not derived, and the first word or literal that no rule gives.
    fn underivable(&self, given: &Given, index: usize) -> Cause {
        let function = given.read.synthesized.get(index);
        let Some((function, body)) = function.zip(given.bodies.get(index)) else {
            return Cause::default();
        };
        let mut hints = parts::hints(function, body);
        let told = |at: usize| hints.iter().any(|hint| hint.at.as_ref().is_some_and(|told| told.start == at));
        if let Some(piece) = stranger(function, body).filter(|piece| !told(piece.at.start)) {
            let message = format!("no rule of the grammar of {} gives `{}`", function.name, piece.text);
            hints.push(Hint::within(piece.at, message));
        }
        Cause {
            sentence: None,
            hints,
        }
    }
}
