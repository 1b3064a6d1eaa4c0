//! What solvers print in the place of a response, and texts that are exchanged.

use super::{encodings, Hint, Reading};
use simple::tree::Tree;
use simple::words::cut;

/// What to do with what a solver printed, where it is no list of definitions.
pub fn hint(reading: &Reading) -> Option<Hint> {
    match reading.in_response {
        true => in_response(reading),
        false => in_script(reading),
    }
}

/// What a response is that is no list of definitions.
fn in_response(reading: &Reading) -> Option<Hint> {
    let words = cut(reading.bytes);
    let word = |index: usize| words.get(index).map(|word| &reading.bytes[word.clone()]);
    match (word(0), word(1)) {
        (None, _) => Some(Hint::general(
            "the response is empty: did the solver run out of time?",
        )),
        (Some(b"("), Some(b"error")) => Some(Hint::within(
            words[0].start..words[1].end,
            "this is the solver's error message: the script is faulty for the solver, or an option is",
        )),
        (Some(b"("), Some(b"set-logic")) => Some(exchanged("response", "script")),
        (Some(b"("), Some(b"define-fun")) => Some(Hint::within(
            words[1].clone(),
            "these definitions stand without brackets around them, in the form of 2016: put `(` before the first and `)` after the last",
        )),
        (Some(b"unsat"), _) => Some(Hint::within(
            words[0].clone(),
            "this is the form of 2016: remove the word `unsat`, and put the definitions between `(` and `)`",
        )),
        (Some(b"feasible"), _) => Some(Hint::within(
            words[0].clone(),
            "remove the word `feasible`, or call cvc5 without --sygus-out=status-and-def",
        )),
        _ => None,
    }
}

/// What stands outside the list of a response and is no word of the language, in a text that is plain ASCII: most often a message.
pub fn message(reading: &Reading) -> Option<Hint> {
    let before = cut(reading.bytes.get(..reading.place)?).into_iter();
    let depth = before.fold(0, |depth, word| match &reading.bytes[word] {
        b"(" => depth + 1,
        b")" => depth - 1,
        _ => depth,
    });
    let told = !reading.in_response || depth > 0 || encodings::hint(reading.bytes).is_some();
    (!told).then(|| {
        Hint::general("this stands outside the list: is it a message of the solver? Call it without -v, and keep its standard error apart")
    })
}

/// A script that is a response.
fn in_script(reading: &Reading) -> Option<Hint> {
    let first = reading.trees.first()?.items()?.first()?;
    let head = first.items().and_then(<[Tree]>::first);
    let defined = head.and_then(Tree::symbol) == Some("define-fun");
    defined.then(|| exchanged("script", "response"))
}

/// The texts are exchanged.
fn exchanged(text: &str, other: &str) -> Hint {
    Hint::general(format!(
        "the {text} looks like a {other}: the script is named first, then the response"
    ))
}
