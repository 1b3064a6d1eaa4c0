//! Holds the enquiries of both checkers against each other: for a word, and for the position of a place.

use crate::trial::Trial;
use std::io;
use sverdhyll::{Answer, Library};

/// What is wrong with the proved enquiries, if anything.
pub fn fault(library: &mut Library, trial: &Trial, answer: &Answer) -> io::Result<Option<String>> {
    match word_fault(library, trial, answer)? {
        Some(fault) => Ok(Some(fault)),
        None => position_fault(library, trial, answer),
    }
}

/// What is wrong with the enquiry for a word: at the place of the answer, and at a place of each text.
fn word_fault(library: &mut Library, trial: &Trial, answer: &Answer) -> io::Result<Option<String>> {
    let (script, response) = (&trial.case.script, &trial.case.response);
    let spoken_of = match answer.text {
        1 => response,
        _ => script,
    };
    let [in_script, in_response] = trial.enquiries;
    for (text, at) in [
        (script, in_script),
        (response, in_response),
        (spoken_of, answer.place as usize),
    ] {
        let (proved, simple) = (library.word(text, at)?, simple::word(text, at));
        if proved != simple {
            let fault = format!("the word at {at}: {proved} bytes, not {simple}");
            return Ok(Some(fault));
        }
    }
    Ok(None)
}

/// What is wrong with the enquiry for a position: in each text at the answer's place, at its start, at its end, one past it and at one more place.
fn position_fault(
    library: &mut Library,
    trial: &Trial,
    answer: &Answer,
) -> io::Result<Option<String>> {
    let texts = [&trial.case.script, &trial.case.response];
    for (text, own) in texts.into_iter().zip(trial.enquiries) {
        let (place, length) = (answer.place as usize, text.len());
        for at in [place, 0, length, length + 1, own] {
            let proved = library.position(text, at)?;
            let proved = simple::Position {
                end: proved.end,
                line: proved.line,
                column: proved.column,
            };
            let simple = simple::position(text, at);
            if proved != simple {
                let fault = format!("the position of {at}: {proved:?}, not {simple:?}");
                return Ok(Some(fault));
            }
        }
    }
    Ok(None)
}
