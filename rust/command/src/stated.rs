//! What answers 14 and 15 name: a constraint, or an assumption.

use simple::script::{Constraint, Script};
use std::fmt;
use sverdhyll::{Answer, FIRST_ASSUMPTION};

/// A constraint or an assumption, by its number among those of its kind, from 0.
#[derive(Clone, Copy, Debug, PartialEq, Eq)]
pub enum Stated {
    Constraint(u64),
    Assumption(u64),
}

impl Stated {
    /// What the second number of answer 14 or 15 names.
    pub fn named(answer: Answer) -> Option<Stated> {
        let second = answer.second;
        match answer.number {
            15 if second >= FIRST_ASSUMPTION => Some(Stated::Assumption(second - FIRST_ASSUMPTION)),
            14 | 15 => Some(Stated::Constraint(second)),
            _ => None,
        }
    }

    /// Its kind in a word.
    pub fn kind(self) -> &'static str {
        match self {
            Stated::Constraint(_) => "constraint",
            Stated::Assumption(_) => "assumption",
        }
    }

    /// Its number among those of its kind.
    pub fn number(self) -> u64 {
        match self {
            Stated::Constraint(number) | Stated::Assumption(number) => number,
        }
    }

    /// Its term and place in a script.
    pub fn within(self, script: &Script) -> Option<&Constraint> {
        let all = match self {
            Stated::Constraint(_) => &script.constraints,
            Stated::Assumption(_) => &script.assumptions,
        };
        all.get(usize::try_from(self.number()).ok()?)
    }
}

impl fmt::Display for Stated {
    /// Its kind and its number.
    fn fmt(&self, to: &mut fmt::Formatter) -> fmt::Result {
        write!(to, "{} {}", self.kind(), self.number())
    }
}

#[cfg(test)]
mod tests {
    use super::*;

    #[test]
    fn what_second_numbers_name() {
        let named = |number: u8, second: u64| {
            let answer = Answer {
                number,
                second,
                ..Answer::default()
            };
            Stated::named(answer).map(|stated| stated.to_string())
        };
        for (number, second, expected) in [
            (0, 65, None),
            (13, 0, None),
            (14, 63, Some("constraint 63")),
            (15, 0, Some("constraint 0")),
            (15, 63, Some("constraint 63")),
            (15, 64, Some("assumption 0")),
            (15, 95, Some("assumption 31")),
        ] {
            assert_eq!(named(number, second).as_deref(), expected);
        }
    }

    #[test]
    fn constraints_and_assumptions_are_counted_apart() {
        let text = "(set-logic BV)(synth-fun f () Bool ((B Bool)) ((B Bool (true))))
            (constraint f)(assume true)(constraint (not f))(assume (not (not f)))(check-synth)";
        let script = simple::script::read(text.as_bytes()).expect("a sound script");
        let term = |stated: Stated| stated.within(&script).map(|one| one.term.to_string());
        assert_eq!(term(Stated::Constraint(1)).as_deref(), Some("(not f)"));
        assert_eq!(term(Stated::Assumption(0)).as_deref(), Some("true"));
        assert_eq!(
            term(Stated::Assumption(1)).as_deref(),
            Some("(not (not f))")
        );
        assert_eq!(term(Stated::Assumption(2)), None);
    }
}
