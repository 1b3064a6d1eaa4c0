//! Asks both checkers and holds their answers and areas against each other.

use crate::kinds::{kinds, KINDS};
use crate::trial::Trial;
use crate::{auditor, controller, enquiries, texts};
use std::{fmt, io};
use sverdhyll::{Answer, Library};

/// What both checkers say of a case.
pub struct Agreed {
    pub answer: Answer,
    /// Of which kinds it is that must come out.
    pub kinds: [bool; KINDS],
    /// What came out of the calls for steps and their runs, and of those for evidence.
    pub called: Called,
}

/// What came out of the calls for steps and their runs, and of those for evidence.
pub type Called = ([u64; controller::KINDS], [u64; auditor::KINDS]);

/// Where the proved checker and the simple one part.
pub struct Disagreement {
    pub proved: Answer,
    pub simple: Answer,
    /// What is wrong: with the area, an enquiry, the texts' own answer, steps, their run or evidence where the answers are the same.
    pub fault: String,
}

impl Disagreement {
    /// Whether another one is of the same kind.
    pub fn is_like(&self, other: &Disagreement) -> bool {
        let kind = |one: &Disagreement| {
            (
                one.proved.number,
                one.simple.number,
                one.proved == one.simple,
            )
        };
        kind(self) == kind(other)
    }
}

impl fmt::Display for Disagreement {
    fn fmt(&self, to: &mut fmt::Formatter) -> fmt::Result {
        writeln!(to, "{}", self.fault)?;
        writeln!(to, "  proved {:?}", self.proved)?;
        write!(to, "  simple {:?}", self.simple)
    }
}

/// The answer of the simple checker, and its area.
fn simple_answer(trial: &Trial) -> (Answer, Vec<u16>) {
    let case = &trial.case;
    let mut area = trial.area.clone();
    let answer = simple::check(
        &case.script,
        &case.response,
        &case.points,
        case.budget,
        &mut area,
    );
    (given(answer), area)
}

/// An answer of the simple checker as the library gives it.
pub fn given(answer: simple::Answer) -> Answer {
    Answer {
        number: answer.number,
        text: answer.text,
        place: answer.place,
        second: answer.second,
        units: answer.units,
        end: answer.end,
        line: answer.line,
        column: answer.column,
        weights: answer.weights,
    }
}

/// What both say of a case, or where they part.
pub fn judged(library: &mut Library, trial: &Trial) -> io::Result<Result<Agreed, Disagreement>> {
    let case = &trial.case;
    let mut area = trial.area.clone();
    let proved = library.check(
        &case.script,
        &case.response,
        &case.points,
        case.budget,
        &mut area,
    )?;
    let (simple, simple_area) = simple_answer(trial);
    let fault = match proved == simple {
        false => Some("the answers differ".to_string()),
        true => area_fault(&area, &simple_area),
    };
    let called = match fault {
        Some(fault) => Err(fault),
        None => other_calls(library, trial, &proved)?,
    };
    Ok(match called {
        Ok(called) => Ok(Agreed {
            kinds: kinds(case, &proved),
            answer: proved,
            called,
        }),
        Err(fault) => Err(Disagreement {
            proved,
            simple,
            fault,
        }),
    })
}

/// What comes out of the calls for steps, their runs and evidence, or what is wrong with these or another call of the proved checker.
fn other_calls(
    library: &mut Library,
    trial: &Trial,
    answer: &Answer,
) -> io::Result<Result<Called, String>> {
    let fault = match texts::fault(library, trial, answer)? {
        Some(fault) => Some(fault),
        None => enquiries::fault(library, trial, answer)?,
    };
    if let Some(fault) = fault {
        return Ok(Err(fault));
    }
    let controlled = controller::counted(library, trial)?;
    let audited = auditor::counted(library, trial)?;
    Ok(controlled.and_then(|controlled| Ok((controlled, audited?))))
}

/// What is wrong with the proved checker's area, if anything: "the shown list is unique", and so is every entry.
fn area_fault(proved: &[u16], simple: &[u16]) -> Option<String> {
    let mut entries = proved.iter().zip(simple);
    let at = entries.position(|(proved, simple)| proved != simple)?;
    let (proved, simple) = (proved[at], simple[at]);
    Some(format!("entry {at} of the area: {proved}, not {simple}"))
}
