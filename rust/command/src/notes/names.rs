//! Answer 7: whether a name is unknown, taken or reserved. The answer's second number says whether it is taken, and where it was declared.

use super::near::question;
use super::shapes::SORTS;
use super::{Cause, Hint, Reading};
use simple::commands::{command, define_fun, Command};
use simple::operators::OPERATORS;
use simple::script::{self, arguments, names_of, synth_fun_sorts};
use simple::terms::{is_reserved, Name};
use simple::tree::Tree;
use simple::words::is_numeral;

/// Operators of SMT-LIB on bit vectors that are not carried.
const NOT_CARRIED: [&str; 4] = ["bvnand", "bvnor", "bvxnor", "bvcomp"];

/// Which of the three it is.
pub fn cause(reading: &Reading) -> Option<Cause> {
    let tree = reading.faulty?;
    let (_, word) = tree.words().into_iter().find(|(place, _)| *place == reading.place)?;
    if reading.second > 0 {
        return Some(taken(reading, word));
    }
    if sorts(tree).iter().any(|sort| sort.start() == reading.place) {
        return Some(Cause::said(format!("`{word}` is no sort: {SORTS}")));
    }
    let new = new_names(tree).iter().any(|name| name.start() == reading.place);
    Some(match (is_reserved(word), new && !reading.in_response) {
        (true, true) => Cause::said(format!("the name `{word}` is reserved")),
        (true, false) => Cause::said(format!("the word `{word}` is reserved, and stands for nothing here")),
        (false, _) => unknown(reading, tree, word),
    })
}

/// The sorts that are written in a command.
fn sorts(tree: &Tree) -> Vec<&Tree> {
    match command(tree) {
        Some(Command::DeclareVar { sort, .. }) => vec![sort],
        Some(Command::DefineFun(definition)) => definition.header.sorts(),
        Some(Command::SynthFun(synth)) => synth_fun_sorts(&synth),
        _ => Vec::new(),
    }
}

/// The new names of a command.
fn new_names(tree: &Tree) -> Vec<&Tree> {
    command(tree).map_or(Vec::new(), |command| script::new_names(&command))
}

/// A name that is taken, and where the second number says that it was declared.
fn taken(reading: &Reading, word: &str) -> Cause {
    let declared = reading.second..reading.second + word.len();
    Cause {
        sentence: Some(format!("the name `{word}` is taken")),
        hints: vec![Hint::within(declared, format!("`{word}` is first declared here"))],
    }
}

/// A name that is unknown, what was probably meant, and where it stands if it is only not seen.
fn unknown(reading: &Reading, tree: &Tree, word: &str) -> Cause {
    if NOT_CARRIED.contains(&word) {
        let message = format!("the operator `{word}` of SMT-LIB is not carried: docs/LANGUAGE.md says what to write instead");
        return Cause::said(message);
    }
    let seen = seen(reading, tree);
    let operators = OPERATORS.iter().map(|operator| operator.name);
    let known = names_of(&seen).into_iter().chain(operators);
    let others = reading.trees.iter().filter(|_| !reading.in_response);
    let mut others = others.filter_map(|one| new_names(one).first().copied());
    let unseen = others.find(|name| name.symbol() == Some(word));
    let hint = unseen.map(|name| Hint::at(name, format!("a name `{word}` stands here, but is not seen there")));
    let numbered = word.strip_prefix("bv").is_some_and(|digits| is_numeral(digits.as_bytes()));
    let question = match &hint {
        Some(_) => String::new(),
        None if numbered => format!(": a constant is `(_ {word} n)`, with its width n"),
        None => question(word, known),
    };
    Cause {
        sentence: Some(format!("the name `{word}` is unknown here{question}")),
        hints: hint.into_iter().collect(),
    }
}

/// The names that the terms of a command see.
pub fn seen(reading: &Reading, tree: &Tree) -> Vec<Name> {
    let script = reading.script;
    if reading.in_response {
        let name = define_fun(tree).and_then(|definition| definition.header.name.symbol());
        let function = script.synthesized.iter().find(|one| Some(one.name.as_str()) == name);
        return function.map_or(Vec::new(), |one| script.seen_by_function(&one.arguments, one.definitions_before));
    }
    match command(tree) {
        Some(Command::DefineFun(definition)) => {
            script.seen_by_function(&arguments(&definition.header), script.definitions.len())
        }
        Some(Command::SynthFun(synth)) => script.seen_by_rule(&synth),
        Some(Command::Constraint(_) | Command::Assume(_)) => script.seen_by_constraint(),
        _ => Vec::new(),
    }
}
