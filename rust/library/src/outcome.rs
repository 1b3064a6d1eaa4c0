//! What an answer says, as an enum.

use crate::{Answer, Position, FIRST_ASSUMPTION};
use std::fmt;

/// A text that an answer can speak of.
#[derive(Clone, Copy, Debug, PartialEq, Eq, Hash)]
pub enum Text {
    Script,
    Response,
    Points,
    /// The lent area of [`Library::check`](crate::Library::check).
    Area,
}

impl fmt::Display for Text {
    fn fmt(&self, to: &mut fmt::Formatter) -> fmt::Result {
        to.write_str(match self {
            Text::Script => "script",
            Text::Response => "response",
            Text::Points => "point list",
            Text::Area => "area",
        })
    }
}

impl fmt::Display for Position {
    fn fmt(&self, to: &mut fmt::Formatter) -> fmt::Result {
        write!(to, "line {}, column {}", self.line, self.column)
    }
}

/// What the checker answers: the table of answers, each with what its numbers stand for.
///
/// `at` is an offset in bytes in the text, `position` the line and the column there and the end of the word; functions, points, constraints and assumptions are
/// numbered from 0; `units` is the summed cost of the evaluations done, that of a false assumption or constraint included.
///
/// | No. | Variant | Meaning | What comes with it |
/// |---|---|---|---|
/// | 0 | `Accepted` | every body is derived, and every constraint holds at every point whose assumptions hold | how many points these are, units |
/// | 1 | `TooLong` | script, response or points too long, or an area that is not of its size | which, and its length |
/// | 2 | `BadWord` | no word of the language | the word |
/// | 3 | `Bracket` | a bracket closed too often, or never closed | the bracket, or the text's length |
/// | 4 | `PastLimit` | past a limit of the checker | the word past it |
/// | 5 | `UnknownShape` | the shape of a command is unknown | the command's bracket, or the word |
/// | 6 | `NotCarried` | SyGuS 2.1 has it, the checker does not carry it | the command's bracket, or the word |
/// | 7 | `Name` | a name unknown, taken or reserved | the name, and where it was declared if it is taken |
/// | 8 | `Sort` | a faulty sort, or a term that has none or another one | its first word |
/// | 9 | `Grammar` | a grammar is not listed as declared, a rule has another sort, or a non-terminal derives no term | its word |
/// | 10 | `Fail` | the response is `fail` | |
/// | 11 | `Infeasible` | the response is `infeasible` | |
/// | 12 | `Header` | the response does not answer the functions of the script | the first word that differs |
/// | 13 | `NoDerivation` | the grammar of a function does not derive its body | the body, the function |
/// | 14 | `ConstraintFalse` | a constraint is false at a point | point, constraint, units |
/// | 15 | `BudgetEnded` | the budget does not suffice for a constraint or an assumption at a point | point, constraint, or [`FIRST_ASSUMPTION`] and the assumption, units |
/// | 16 | `BadPoints` | the points are not whole, or a number is outside its sort | the list's length, or the number's index |
/// | 17 | `AreaMissized` | an area for steps that is not of its size, or one for an evidence file that is too short | its length |
/// | 18 | `NoSteps` | the script has no function of this number, or its body uses a `define-fun` | the function |
/// | 19 | `BadStep` | a step that is malformed or cut short, or cannot be run; a list that does not end with one value | the step, or the number of steps |
/// | 20 | `BadArgument` | arguments that are not as many as sorts, a number that is no sort, or an argument outside its sort | the number of arguments, or the index |
/// | 21 | `WrongBlock` | an evidence file that is empty, has a block cut short, with a wrong sum, spare or wrongly filled, or lengths past its end | the block, 0 for an empty file and for lengths |
/// | 22 | `NotFollowed` | a list of an evidence file does not derive its body, or the script has no function for it | the function |
#[derive(Clone, Copy, Debug, PartialEq, Eq, Hash)]
#[non_exhaustive]
pub enum Outcome {
    /// 0: accepted; `points` are those whose assumptions all held.
    Accepted { points: u64, units: u64 },
    /// 1: too long, or an area that is not of its size.
    TooLong { text: Text, length: u64 },
    /// 2: a bad word.
    BadWord {
        text: Text,
        at: u64,
        position: Position,
    },
    /// 3: a bracket closed too often or never closed.
    Bracket {
        text: Text,
        at: u64,
        position: Position,
    },
    /// 4: past a limit.
    PastLimit {
        text: Text,
        at: u64,
        position: Position,
    },
    /// 5: shape unknown.
    UnknownShape {
        text: Text,
        at: u64,
        position: Position,
    },
    /// 6: not carried.
    NotCarried {
        text: Text,
        at: u64,
        position: Position,
    },
    /// 7: a name unknown, taken or reserved; `declared` is the offset in the script at which one that is taken was declared.
    Name {
        text: Text,
        at: u64,
        position: Position,
        declared: Option<u64>,
    },
    /// 8: a sort fault.
    Sort {
        text: Text,
        at: u64,
        position: Position,
    },
    /// 9: a grammar fault.
    Grammar { at: u64, position: Position },
    /// 10: the response is `fail`.
    Fail,
    /// 11: the response is `infeasible`.
    Infeasible,
    /// 12: the response's header differs.
    Header { at: u64, position: Position },
    /// 13: no derivation.
    NoDerivation {
        at: u64,
        position: Position,
        function: u64,
    },
    /// 14: a constraint is false.
    ConstraintFalse {
        point: u64,
        constraint: u64,
        units: u64,
    },
    /// 15: the budget ended; from [`FIRST_ASSUMPTION`] on, `constraint` is an assumption.
    BudgetEnded {
        point: u64,
        constraint: u64,
        units: u64,
    },
    /// 16: points that are not whole, or a number outside its sort.
    BadPoints { at: u64 },
    /// 17: an area for steps that is not of its size, or one for an evidence file that is too short.
    AreaMissized { length: u64 },
    /// 18: a function that the script lacks, or whose body uses a `define-fun`.
    NoSteps { function: u64 },
    /// 19: a step that is refused, or the number of steps where the list does not end with one value.
    BadStep { step: u64 },
    /// 20: arguments of wrong count or range.
    BadArgument { at: u64 },
    /// 21: a block of an evidence file that is not as it should be; 0 also where the file is empty, or its lengths lead past its end.
    WrongBlock { block: u64 },
    /// 22: a function whose list in an evidence file does not derive its body, or that the script lacks.
    NotFollowed { function: u64 },
    /// A number that this version of the crate does not know.
    Other(Answer),
}

impl From<Answer> for Outcome {
    /// What an answer says.
    fn from(answer: Answer) -> Outcome {
        let Answer {
            place,
            second,
            units,
            ..
        } = answer;
        let text = match answer.text {
            0 => Text::Script,
            1 => Text::Response,
            2 => Text::Points,
            _ => Text::Area,
        };
        let (at, point, constraint) = (place, place, second);
        let position = answer.position().unwrap_or_default();
        match answer.number {
            0 => Outcome::Accepted {
                points: second,
                units,
            },
            1 => Outcome::TooLong {
                text,
                length: place,
            },
            2 => Outcome::BadWord { text, at, position },
            3 => Outcome::Bracket { text, at, position },
            4 => Outcome::PastLimit { text, at, position },
            5 => Outcome::UnknownShape { text, at, position },
            6 => Outcome::NotCarried { text, at, position },
            7 => Outcome::Name {
                text,
                at,
                position,
                declared: (second > 0).then_some(second),
            },
            8 => Outcome::Sort { text, at, position },
            9 => Outcome::Grammar { at, position },
            10 => Outcome::Fail,
            11 => Outcome::Infeasible,
            12 => Outcome::Header { at, position },
            13 => Outcome::NoDerivation {
                at,
                position,
                function: second,
            },
            14 => Outcome::ConstraintFalse {
                point,
                constraint,
                units,
            },
            15 => Outcome::BudgetEnded {
                point,
                constraint,
                units,
            },
            16 => Outcome::BadPoints { at },
            17 => Outcome::AreaMissized { length: place },
            18 => Outcome::NoSteps { function: place },
            19 => Outcome::BadStep { step: place },
            20 => Outcome::BadArgument { at },
            21 => Outcome::WrongBlock { block: place },
            22 => Outcome::NotFollowed { function: place },
            _ => Outcome::Other(answer),
        }
    }
}

impl fmt::Display for Outcome {
    /// The answer in a sentence, without a full stop.
    fn fmt(&self, to: &mut fmt::Formatter) -> fmt::Result {
        match *self {
            Outcome::Accepted { points, units } => write!(to, "accepted: derived, and no constraint is false; points whose assumptions hold: {points}, units spent: {units}"),
            Outcome::TooLong { text: Text::Area, length } => write!(to, "the area has {length} entries, not {}", crate::AREA_LENGTH),
            Outcome::TooLong { text, length } => write!(to, "the {text} is too long: {length}"),
            Outcome::BadWord { text, position, .. } => write!(to, "{text}, {position}: no word of the language"),
            Outcome::Bracket { text, position, .. } => write!(to, "{text}, {position}: a bracket is closed too often or never closed"),
            Outcome::PastLimit { text, position, .. } => write!(to, "{text}, {position}: past a limit"),
            Outcome::UnknownShape { text, position, .. } => write!(to, "{text}, {position}: of no shape that is known"),
            Outcome::NotCarried { text, position, .. } => write!(to, "{text}, {position}: not carried"),
            Outcome::Name { text, position, declared: None, .. } => write!(to, "{text}, {position}: a name unknown or reserved"),
            Outcome::Name { text, position, declared: Some(declared), .. } => write!(to, "{text}, {position}: a name that is taken, declared at offset {declared}"),
            Outcome::Sort { text, position, .. } => write!(to, "{text}, {position}: a sort fault"),
            Outcome::Grammar { position, .. } => write!(to, "script, {position}: a grammar fault"),
            Outcome::Fail => to.write_str("the response is fail"),
            Outcome::Infeasible => to.write_str("the response is infeasible"),
            Outcome::Header { position, .. } => write!(to, "response, {position}: differs from the functions of the script"),
            Outcome::NoDerivation { position, function, .. } => write!(to, "response, {position}: the grammar of function {function} does not derive this body"),
            Outcome::ConstraintFalse { point, constraint, units } => {
                write!(to, "constraint {constraint} is false at point {point}; units spent: {units}")
            }
            Outcome::BudgetEnded { point, constraint, units } => {
                let (kind, number) = match constraint {
                    FIRST_ASSUMPTION.. => ("assumption", constraint - FIRST_ASSUMPTION),
                    _ => ("constraint", constraint),
                };
                write!(to, "the budget ends before {kind} {number} at point {point}; units spent: {units}")
            }
            Outcome::BadPoints { at } => write!(to, "the points are not whole, or number {at} is outside its sort"),
            Outcome::AreaMissized { length } => {
                write!(to, "the area for steps is not of {} numbers, or that for evidence is too short: {length}", crate::STEPS_LENGTH)
            }
            Outcome::NoSteps { function } => write!(to, "function {function} has no steps: the script lacks it, or its body uses a define-fun"),
            Outcome::BadStep { step } => write!(to, "step {step} cannot be run, or the list does not end there with one value"),
            Outcome::BadArgument { at } => write!(to, "there are not as many arguments as sorts, or number {at} is no sort or outside its sort"),
            Outcome::WrongBlock { block } => write!(to, "block {block} of the evidence file is cut short, spare, wrongly filled or with a wrong sum, or the lengths lead past the file"),
            Outcome::NotFollowed { function } => write!(to, "the list of function {function} does not derive its body, or the script lacks it"),
            Outcome::Other(Answer { number, .. }) => write!(to, "answer {number}, which this version does not know"),
        }
    }
}

#[cfg(test)]
mod tests {
    use super::*;
    use crate::FUNCTIONS;

    /// The answer of a number.
    fn answer(number: u8, text: u8) -> Answer {
        Answer {
            number,
            text,
            place: 4,
            second: 5,
            units: 6,
            end: 7,
            line: 8,
            column: 9,
            weights: [0; FUNCTIONS],
        }
    }

    #[test]
    fn every_number_has_its_own_outcome() {
        let outcomes: Vec<Outcome> = (0..=22).map(|number| answer(number, 0).into()).collect();
        for (number, outcome) in outcomes.iter().enumerate() {
            assert!(!matches!(outcome, Outcome::Other(_)), "{number}");
            assert_eq!(
                outcomes
                    .iter()
                    .filter(|one| one.to_string() == outcome.to_string())
                    .count(),
                1
            );
        }
        assert_eq!(Outcome::from(answer(23, 3)), Outcome::Other(answer(23, 3)));
    }

    #[test]
    fn sentences() {
        let said = |number, text| Outcome::from(answer(number, text)).to_string();
        assert_eq!(
            said(7, 0),
            "script, line 8, column 9: a name that is taken, declared at offset 5"
        );
        let unknown = Answer {
            second: 0,
            ..answer(7, 1)
        };
        assert_eq!(
            Outcome::from(unknown).to_string(),
            "response, line 8, column 9: a name unknown or reserved"
        );
        assert_eq!(
            said(14, 2),
            "constraint 5 is false at point 4; units spent: 6"
        );
        for (second, named) in [
            (63, "constraint 63"),
            (64, "assumption 0"),
            (95, "assumption 31"),
        ] {
            let ended = Answer {
                second,
                ..answer(15, 2)
            };
            let expected = format!("the budget ends before {named} at point 4; units spent: 6");
            assert_eq!(Outcome::from(ended).to_string(), expected);
        }
        assert_eq!(said(1, 3), "the area has 4 entries, not 32768");
        assert_eq!(said(1, 2), "the point list is too long: 4");
        assert_eq!(
            said(22, 3),
            "the list of function 4 does not derive its body, or the script lacks it"
        );
    }
}
