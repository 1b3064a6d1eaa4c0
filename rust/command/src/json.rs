//! The outcome for programs: one JSON object on one line, whose keys are always the same. docs/answer.schema.json describes it.

use crate::answers::{meaning, sentence, status, text_name, verdict};
use crate::derivation::Step;
use crate::evaluation::whole;
use crate::evidence::{Held, Which};
use crate::facts::{Derived, Facts, Judged, Located, Note};
use crate::failure::{Failure, FAILED};
use crate::guards::Guard;
use crate::layout::{Block, Lengths};
use crate::listing::{words, Listed};
use crate::ran;
use crate::refute::Claim;
use crate::source::Text;
use simple::eval::Value;
use simple::grammar::Sorted;
use std::fmt;
use sverdhyll::digest::sha256;
use sverdhyll::{Position, STEP};

/// The name of the format, and its version: a later one keeps the keys of an earlier one.
const FORMAT: [(&str, Json); 2] = [
    ("format", Json::Word("sverdhyll")),
    ("version", Json::Number(8)),
];

/// A JSON value.
#[derive(Clone, Debug)]
enum Json {
    Null,
    Number(u64),
    /// A number with a sign.
    Signed(i64),
    /// A text that needs no escapes.
    Word(&'static str),
    Text(String),
    List(Vec<Json>),
    Object(Vec<(&'static str, Json)>),
}

use Json::{List, Null, Number, Object};

/// A text value.
fn text(text: impl Into<String>) -> Json {
    Json::Text(text.into())
}

/// The value of what is there, else null.
fn or_null<T>(value: Option<&T>, json: impl Fn(&T) -> Json) -> Json {
    value.map_or(Null, json)
}

/// The object of a failure, after which there is no answer.
pub fn failure(failure: &Failure) -> String {
    let said = [
        ("verdict", text("failed")),
        ("status", Number(FAILED.into())),
        ("message", text(&failure.0)),
    ];
    Object(FORMAT.into_iter().chain(said).collect()).to_string()
}

/// The object of all facts, by the library with this digest.
pub fn object(facts: &Facts, library: &str) -> String {
    let answer = facts.answer;
    let verdict = verdict(answer.number);
    let facts = vec![
        ("answer", Number(answer.number.into())),
        ("meaning", text(meaning(answer.number))),
        ("verdict", text(verdict.word())),
        ("status", Number(status(facts).into())),
        ("message", text(sentence(facts))),
        ("text", text(text_name(answer.text))),
        ("place", Number(answer.place)),
        ("second", Number(answer.second)),
        ("units", Number(answer.units)),
        ("budget", Number(budget(facts))),
        ("library", Object(vec![("sha256", text(library))])),
        ("script", text_of(facts, Which::Script)),
        ("response", text_of(facts, Which::Response)),
        ("points", points(facts)),
        ("location", or_null(facts.located.as_ref(), location)),
        ("declared", or_null(facts.declared.as_ref(), location)),
        ("note", or_null(placed(facts), note)),
        ("notes", List(facts.notes.iter().map(note).collect())),
        ("constraint", or_null(facts.judged.as_ref(), constraint)),
        ("guards", List(facts.guards.iter().map(guard).collect())),
        ("refute", or_null(facts.claim.as_ref(), claim)),
        (
            "functions",
            List(facts.derived.iter().map(function).collect()),
        ),
        ("steps", or_null(facts.listed.as_ref(), steps)),
        ("value", Null),
        ("evidence", evidence(facts)),
    ];
    Object(FORMAT.into_iter().chain(facts).collect()).to_string()
}

/// The object of the run of a list, by the library with this digest: the keys are the same, and there are no texts.
pub fn run(outcome: &ran::Outcome, library: &str) -> String {
    let answer = outcome.answer;
    let none = |key: &'static str| (key, Null);
    let empty = |key: &'static str| (key, List(Vec::new()));
    let facts = vec![
        ("answer", Number(answer.number.into())),
        ("meaning", text(meaning(answer.number))),
        ("verdict", text(verdict(answer.number).word())),
        ("status", Number(outcome.status().into())),
        ("message", text(&outcome.sentence)),
        ("text", text(text_name(answer.text))),
        ("place", Number(answer.place)),
        ("second", Number(answer.second)),
        ("units", Number(answer.units)),
        ("budget", Number(0)),
        ("library", Object(vec![("sha256", text(library))])),
        none("script"),
        none("response"),
        none("points"),
        ("location", or_null(outcome.located.as_ref(), location)),
        none("declared"),
        none("note"),
        empty("notes"),
        none("constraint"),
        empty("guards"),
        none("refute"),
        empty("functions"),
        ("steps", given_steps(outcome)),
        ("value", or_null(outcome.value.as_ref(), |one| value(*one))),
        none("evidence"),
    ];
    Object(FORMAT.into_iter().chain(facts).collect()).to_string()
}

/// The budget; 0 of a call that evaluates nothing.
fn budget(facts: &Facts) -> u64 {
    match facts.evidence {
        Some(_) => 0,
        None => facts.given.budget,
    }
}

/// One of the two texts; null where the blocks of an evidence file are not right.
fn text_of(facts: &Facts, which: Which) -> Json {
    match which {
        _ if facts.answer.number == 21 => Null,
        Which::Script => file(&facts.given.script),
        Which::Response => file(&facts.given.response),
    }
}

/// The evidence file: what its blocks and its payload hold, and what is wrong with it.
fn evidence(facts: &Facts) -> Json {
    let evidence = facts.evidence.as_ref();
    let Some((evidence, held)) = evidence.and_then(|one| Some((one, one.held()?))) else {
        return Null;
    };
    let wrong = facts.answer.number == 21;
    let fault = held.layout.fault.filter(|_| wrong);
    let stopped = evidence.stopped().filter(|stopped| stopped.why.is_some());
    let contents = held.layout.contents.as_ref().filter(|_| !wrong);
    let lists = contents.into_iter().flat_map(|one| &one.lists);
    let list = |list: &Vec<u16>| List(list.iter().map(|&rule| Number(rule.into())).collect());
    Object(vec![
        ("file", file(&held.file)),
        ("blocks", blocks(held)),
        ("lengths", or_null(held.layout.lengths.as_ref(), lengths)),
        ("lists", List(lists.map(list).collect())),
        (
            "fault",
            or_null(fault.as_ref(), |(_, fault)| text(fault.kind())),
        ),
        (
            "entry",
            or_null(stopped, |stopped| Number(stopped.steps.len() as u64)),
        ),
    ])
}

/// The blocks of an evidence file, each with its sums where it is whole.
fn blocks(held: &Held) -> Json {
    let block = |block: &Block| {
        Object(vec![
            ("bytes", Number(block.bytes as u64)),
            (
                "stored",
                or_null(block.sums.as_ref(), |sums| Number(sums.stored)),
            ),
            ("sum", or_null(block.sums.as_ref(), |sums| Number(sums.sum))),
        ])
    };
    List(held.layout.blocks.iter().map(block).collect())
}

/// The lengths that the payload of an evidence file begins with.
fn lengths(lengths: &Lengths) -> Json {
    let rules = lengths.rules.iter().map(|&rules| Number(rules));
    Object(vec![
        ("script", Number(lengths.script)),
        ("response", Number(lengths.response)),
        ("rules", List(rules.collect())),
    ])
}

/// The steps of a function's body.
fn steps(listed: &Listed) -> Json {
    Object(vec![
        ("file", Null),
        ("function", text(&listed.name)),
        ("number", Number(listed.number)),
        ("list", steps_in(&listed.numbers, &listed.arguments)),
    ])
}

/// The steps of a list that was given.
fn given_steps(outcome: &ran::Outcome) -> Json {
    Object(vec![
        ("file", file(&outcome.list.text)),
        ("function", Null),
        ("number", Null),
        ("list", steps_in(&outcome.list.numbers, &[])),
    ])
}

/// Steps in words and numbers.
fn steps_in(numbers: &[u64], arguments: &[Sorted]) -> Json {
    let step = |step: &[u64]| {
        let numbers = step.iter().map(|&number| Number(number)).collect();
        Object(vec![
            ("does", text(words(step, arguments))),
            ("numbers", List(numbers)),
        ])
    };
    List(numbers.chunks(STEP).map(step).collect())
}

/// The value of a run, and its sort.
fn value(value: Value) -> Json {
    Object(vec![
        ("value", text(value.to_string())),
        ("number", Number(value.number())),
        ("sort", text(value.sort().to_string())),
    ])
}

/// A text's name and length, and its digest where it was read whole.
fn file(file: &Text) -> Json {
    let whole = (file.bytes.len() as u64 == file.length).then_some(&file.bytes);
    Object(vec![
        ("file", text(&file.name)),
        ("bytes", Number(file.length)),
        ("sha256", or_null(whole, |bytes| text(sha256(bytes)))),
    ])
}

/// The points and the variables that they are for; null where none are taken.
fn points(facts: &Facts) -> Json {
    if facts.evidence.is_some() {
        return Null;
    }
    let points = &facts.given.points;
    let variable = |one: &Sorted| {
        Object(vec![
            ("name", text(&one.name)),
            ("sort", text(one.sort.to_string())),
        ])
    };
    let width = facts.given.read.variables.len() as u64;
    let numbers = match &points.text {
        Some(_) => points.listed.len() as u64,
        None => points.count(&facts.given.read.variables) * width,
    };
    Object(vec![
        ("origin", text(points.origin.kind())),
        (
            "name",
            or_null(points.origin.name().as_ref(), |name| text(name)),
        ),
        ("numbers", Number(numbers)),
        (
            "variables",
            List(facts.given.read.variables.iter().map(variable).collect()),
        ),
    ])
}

/// A place in a text.
fn location(located: &Located) -> Json {
    let place = &located.place;
    Object(vec![
        ("file", text(&located.file)),
        ("line", Number(place.position.line)),
        ("column", Number(place.position.column)),
        ("end", Number(place.position.end)),
        ("word", text(&place.word)),
        ("source", text(&place.source)),
    ])
}

/// The first note that has a place.
fn placed(facts: &Facts) -> Option<&Note> {
    facts.notes.iter().find(|note| note.located.is_some())
}

/// A note, with the place that it speaks of.
fn note(note: &Note) -> Json {
    Object(vec![
        ("message", text(&note.message)),
        ("location", or_null(note.located.as_ref(), location)),
    ])
}

/// The constraint or assumption and the point of answer 14 or 15.
fn constraint(judged: &Judged) -> Json {
    let valued = |key: &'static str, (name, value): &(String, Value)| {
        let signed = whole(*value).filter(|_| judged.signed);
        Object(vec![
            (key, text(name)),
            ("value", text(value.to_string())),
            ("signed", signed.map_or(Null, Json::Signed)),
        ])
    };
    let side = |index: usize| {
        let side = judged.sides.as_ref().map(|sides| &sides[index]);
        or_null(side, |side| valued("term", side))
    };
    let point = judged.point.iter().map(|one| valued("name", one));
    Object(vec![
        ("kind", text(judged.stated.kind())),
        ("number", Number(judged.stated.number())),
        ("line", Number(judged.position.line)),
        ("column", Number(judged.position.column)),
        ("term", text(&judged.text)),
        ("point", List(point.collect())),
        ("left", side(0)),
        ("right", side(1)),
    ])
}

/// The left side of a `=>`, where it stands, and how often it held.
fn guard((guard, position): &(Guard, Position)) -> Json {
    Object(vec![
        ("constraint", Number(guard.constraint as u64)),
        ("line", Number(position.line)),
        ("column", Number(position.column)),
        ("term", text(&guard.term)),
        ("held", Number(guard.held)),
    ])
}

/// What a solver says.
fn claim(claim: &Claim) -> Json {
    Object(vec![
        ("solver", text(&claim.solver)),
        ("claim", text(&claim.word)),
    ])
}

/// A function and its derivation.
fn function(derived: &Derived) -> Json {
    Object(vec![
        ("name", text(&derived.name)),
        ("start", text(&derived.start)),
        ("body", text(&derived.body)),
        ("weight", Number(derived.weight)),
        ("derivation", List(derived.steps.iter().map(step).collect())),
    ])
}

/// A step of a derivation.
fn step(step: &Step) -> Json {
    Object(vec![
        ("rule", Number(step.number.into())),
        ("nonterminal", text(&step.nonterminal)),
        ("weight", Number(step.weight)),
        ("text", text(&step.rule)),
        ("given", or_null(step.given.as_ref(), |given| text(given))),
        (
            "written",
            or_null(step.written.as_ref(), |written| text(written)),
        ),
        ("term", text(&step.term)),
    ])
}

impl fmt::Display for Json {
    /// The value on one line.
    fn fmt(&self, to: &mut fmt::Formatter) -> fmt::Result {
        match self {
            Null => to.write_str("null"),
            Number(number) => write!(to, "{number}"),
            Json::Signed(number) => write!(to, "{number}"),
            Json::Word(word) => write!(to, "\"{word}\""),
            Json::Text(text) => write_text(text, to),
            List(items) => {
                to.write_str("[")?;
                for (index, item) in items.iter().enumerate() {
                    write!(to, "{}{item}", comma(index))?;
                }
                to.write_str("]")
            }
            Object(pairs) => {
                to.write_str("{")?;
                for (index, (key, value)) in pairs.iter().enumerate() {
                    write!(to, "{}\"{key}\":{value}", comma(index))?;
                }
                to.write_str("}")
            }
        }
    }
}

/// What stands before an item.
fn comma(index: usize) -> &'static str {
    match index {
        0 => "",
        _ => ",",
    }
}

/// Writes a text in quotes, with escapes where JSON needs them.
fn write_text(text: &str, to: &mut fmt::Formatter) -> fmt::Result {
    to.write_str("\"")?;
    for character in text.chars() {
        match character {
            '"' | '\\' => write!(to, "\\{character}")?,
            '\0'..='\x1f' | '\x7f' => write!(to, "\\u{:04x}", u32::from(character))?,
            _ => write!(to, "{character}")?,
        }
    }
    to.write_str("\"")
}

#[cfg(test)]
mod tests {
    use super::*;

    #[test]
    fn values_are_written() {
        let object = Object(vec![
            ("none", Null),
            ("most", Number(u64::MAX)),
            ("least", Json::Signed(i64::MIN)),
            (
                "list",
                List(vec![text("a\"b\\c\n\u{e9}"), List(Vec::new())]),
            ),
        ]);
        let expected = "{\"none\":null,\"most\":18446744073709551615,\"least\":-9223372036854775808,\"list\":[\"a\\\"b\\\\c\\u000a\u{e9}\",[]]}";
        assert_eq!(object.to_string(), expected);
    }
}
