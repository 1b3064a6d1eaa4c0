//! Holds the texts' own answers of both checkers against each other, and against the answer to the whole case.

use crate::judge::given;
use crate::trial::Trial;
use std::io;
use sverdhyll::{Answer, Library};

/// What is wrong with the proved checker's own answer of the texts, if anything.
pub fn fault(library: &mut Library, trial: &Trial, answer: &Answer) -> io::Result<Option<String>> {
    let (script, response) = (&trial.case.script, &trial.case.response);
    let proved = library.read(script, response)?;
    let simple = given(simple::read(script, response));
    let mut expected = [Some(simple), left_by(answer)].into_iter().flatten();
    let other = expected.find(|&expected| expected != proved);
    Ok(other.map(|other| format!("the texts' own answer: {proved:?}, not {other:?}")))
}

/// The own answer of the texts that the answer to a case leaves: the same where a text is refused, 0 about none where it speaks of what comes after the texts.
/// Where it refuses the points or the area it leaves any.
fn left_by(answer: &Answer) -> Option<Answer> {
    match (answer.number, answer.text) {
        (1, 2 | 3) => None,
        (1..=12, _) => Some(*answer),
        _ => Some(Answer {
            text: 3,
            ..Answer::default()
        }),
    }
}
