//! How often each answer came out.

use crate::judge::Agreed;
use crate::kinds::{KINDS, NAMES};
use crate::{auditor, controller};
use std::fmt;

/// The texts that an answer may speak of.
const TEXTS: [&str; 4] = ["script", "response", "points", "none"];
/// The texts that each answer may speak of.
const SPOKEN_OF: [&[u8]; 17] = [
    &[3],
    &[0, 1, 2, 3],
    &[0, 1],
    &[0, 1],
    &[0, 1],
    &[0, 1],
    &[0, 1],
    &[0, 1],
    &[0, 1],
    &[0],
    &[1],
    &[1],
    &[1],
    &[1],
    &[2],
    &[2],
    &[2],
];

/// How often each answer came out of each text, how often each kind did, and what came out of the calls for steps, their runs and evidence.
#[derive(Default)]
pub struct Tally {
    answers: [[u64; 4]; 17],
    kinds: [u64; KINDS],
    controlled: [u64; controller::KINDS],
    audited: [u64; auditor::KINDS],
}

impl Tally {
    /// Counts a case on which the two agree.
    pub fn count(&mut self, agreed: &Agreed) {
        let answer = &agreed.answer;
        self.answers[usize::from(answer.number)][usize::from(answer.text)] += 1;
        for (count, &is_one) in self.kinds.iter_mut().zip(&agreed.kinds) {
            *count += u64::from(is_one);
        }
        let (controlled, audited) = &agreed.called;
        let counts = self.controlled.iter_mut().chain(&mut self.audited);
        for (count, more) in counts.zip(controlled.iter().chain(audited)) {
            *count += more;
        }
    }

    /// Adds another tally.
    pub fn add(&mut self, other: &Tally) {
        let counts = self.answers.iter_mut().flatten().chain(&mut self.kinds);
        let counts = counts.chain(&mut self.controlled).chain(&mut self.audited);
        let others = other.answers.iter().flatten().chain(&other.kinds);
        let others = others.chain(&other.controlled).chain(&other.audited);
        for (count, others) in counts.zip(others) {
            *count += others;
        }
    }

    /// The answers, with the texts they may speak of, and the kinds that did not come out.
    pub fn missing(&self) -> Vec<String> {
        let rows = SPOKEN_OF.iter().enumerate();
        let all = rows.flat_map(|(number, texts)| texts.iter().map(move |&text| (number, text)));
        let none = all.filter(|&(number, text)| self.answers[number][usize::from(text)] == 0);
        let name = |(number, text)| format!("answer {number} about {}", TEXTS[usize::from(text)]);
        let kinds = NAMES.iter().zip(self.kinds);
        let kinds = kinds.chain(controller::NAMES.iter().zip(self.controlled));
        let kinds = kinds.chain(auditor::NAMES.iter().zip(self.audited));
        let kinds = kinds.filter(|&(_, count)| count == 0);
        let kinds = kinds.map(|(name, _)| name.to_string());
        none.map(name).chain(kinds).collect()
    }
}

impl fmt::Display for Tally {
    fn fmt(&self, to: &mut fmt::Formatter) -> fmt::Result {
        let [script, response, points, none] = TEXTS;
        writeln!(to, "answer {script:>9} {response:>9} {points:>9} {none:>9}")?;
        for (number, [script, response, points, none]) in self.answers.iter().enumerate() {
            writeln!(to, "{number:6} {script:9} {response:9} {points:9} {none:9}")?;
        }
        for (name, count) in NAMES.iter().zip(self.kinds) {
            writeln!(to, "{name}: {count} cases")?;
        }
        let called = controller::NAMES.iter().zip(self.controlled);
        for (name, count) in called.chain(auditor::NAMES.iter().zip(self.audited)) {
            writeln!(to, "{name}: {count}")?;
        }
        Ok(())
    }
}
