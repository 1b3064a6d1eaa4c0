//! Answers in words.

use crate::evidence;
use crate::facts::Facts;
use crate::points::{bits, Origin, MOST_NUMBERS};
use crate::stated::Stated;
use simple::grammar::Sorted;

/// "Allow 65,536 bytes ... of script".
pub const MOST_SCRIPT_BYTES: usize = 65_536;
/// "response 8,192".
pub const MOST_RESPONSE_BYTES: usize = 8_192;

/// The exit status where `--strict` finds an acceptance wanting.
const NOT_THOROUGH: u8 = 4;
/// A number of points is written out up to 2 to this.
const MOST_WRITTEN_OUT: u32 = 22;

/// The meaning of each number, by document 01's table.
const MEANINGS: [&str; 23] = [
    "accepted",
    "too long",
    "bad word",
    "bracket closed too often or never closed",
    "past a limit",
    "shape unknown",
    "not carried",
    "name unknown, taken or reserved",
    "sort fault",
    "grammar fault",
    "response is fail",
    "response is infeasible",
    "response header differs",
    "no derivation",
    "constraint false",
    "budget ended",
    "point list not whole points, or value outside its sort",
    "area of wrong size",
    "function not in the script, or its body uses a define-fun",
    "step refused, or list not ending with one value",
    "arguments of wrong count or range",
    "block wrong or spare, or lengths past the file",
    "list that does not derive its body, or of an absent function",
];

/// What an answer comes to.
#[derive(Clone, Copy, Debug, PartialEq, Eq)]
pub enum Verdict {
    Accepted,
    /// The response is found wanting.
    Rejected,
    /// The budget ended before there was a verdict.
    Undecided,
    /// The input is not one that can be judged.
    Refused,
}

/// What the answer of a number comes to.
pub fn verdict(number: u8) -> Verdict {
    match number {
        0 => Verdict::Accepted,
        10..=14 | 18 | 22 => Verdict::Rejected,
        15 => Verdict::Undecided,
        _ => Verdict::Refused,
    }
}

impl Verdict {
    /// The exit status of the command.
    pub fn status(self) -> u8 {
        match self {
            Verdict::Accepted => 0,
            Verdict::Rejected | Verdict::Undecided => 1,
            Verdict::Refused => 2,
        }
    }

    /// The verdict as a word.
    pub fn word(self) -> &'static str {
        match self {
            Verdict::Accepted => "accepted",
            Verdict::Rejected => "rejected",
            Verdict::Undecided => "undecided",
            Verdict::Refused => "refused",
        }
    }
}

/// The meaning of a number.
pub fn meaning(number: u8) -> &'static str {
    MEANINGS
        .get(usize::from(number))
        .copied()
        .unwrap_or("unknown answer")
}

/// The name of the text that the first line names: the one that the answer speaks of, else the response, or the evidence file that was checked.
pub fn file(facts: &Facts) -> &str {
    let evidence = facts.evidence.as_ref();
    if let Some(name) = evidence.and_then(|one| evidence::named(facts, one)) {
        return name;
    }
    let points = facts.given.points.text.as_ref();
    match (facts.answer.text, facts.answer.number, points) {
        (0, ..) => &facts.given.script.name,
        (2, 1 | 16, Some((text, _))) => &text.name,
        _ => &facts.given.response.name,
    }
}

/// The name of a text.
pub fn text_name(text: u8) -> &'static str {
    match text {
        0 => "script",
        1 => "response",
        2 => "points",
        _ => "none",
    }
}

/// A number with a comma before every three digits.
pub fn grouped(number: u64) -> String {
    let digits = number.to_string();
    let mut grouped = String::new();
    for (index, digit) in digits.chars().enumerate() {
        if index > 0 && (digits.len() - index) % 3 == 0 {
            grouped.push(',');
        }
        grouped.push(digit);
    }
    grouped
}

/// A number of things, the word in its form for one or for many.
pub fn counted(count: u64, thing: &str) -> String {
    match count {
        1 => format!("1 {thing}"),
        _ => format!("{count} {thing}s"),
    }
}

/// The answer in a sentence, without the place.
pub fn sentence(facts: &Facts) -> String {
    let answer = facts.answer;
    let place = answer.place;
    let located = facts.located.as_ref();
    let word = located.map_or("", |one| one.place.word.as_str());
    if let Some(cause) = &facts.cause {
        return cause.clone();
    }
    let evidence = facts.evidence.as_ref();
    if let Some(sentence) = evidence.and_then(|one| evidence::sentence(facts, one)) {
        return sentence;
    }
    let named = Stated::named(answer).map(|stated| stated.to_string());
    let named = named.unwrap_or_default();
    match answer.number {
        0 => accepted(facts),
        1 => too_long(facts),
        2..=9 => refusal(answer.number, text_name(answer.text), word),
        10 | 11 => format!("the {}: the solver gave no body", meaning(answer.number)),
        12 => "this differs from the functions that the script declares".to_string(),
        13 => {
            let function = facts.function.as_deref().unwrap_or_default();
            format!("the grammar of {function} does not derive this body")
        }
        14 => format!("{named} is false at point {place}"),
        15 => {
            let budget = counted(facts.given.budget, "unit");
            format!("the budget of {budget} ends before {named} at point {place}")
        }
        16 => bad_points(facts),
        18 => no_steps(facts),
        number => format!("unknown answer {number}"),
    }
}

/// Answers 2 to 9 of a text in words; the word is empty at the text's end.
fn refusal(number: u8, text: &str, word: &str) -> String {
    let quoted = match word.len() {
        0..=40 => format!("`{word}`"),
        _ => format!("`{}...`", &word[..40]),
    };
    match (number, word) {
        (2, _) => format!("{quoted} is no numeral, no literal and no symbol"),
        (3, "") => format!("the {text} ends, and a bracket is not closed"),
        (3, _) => "this bracket closes none that is open".to_string(),
        (4, _) => format!("{quoted} is past a limit: {}", limit(word)),
        (5, "") => format!("the {text} ends early"),
        (5, "(") => "what begins here has no shape that is known".to_string(),
        (5, _) => format!("{quoted} stands where a list is needed"),
        (6, "(") => "this command, or a part of it, is not carried".to_string(),
        (6, _) => format!("{quoted} is not carried"),
        (7, _) => format!("the name {quoted} is unknown here, or taken, or reserved"),
        (8, _) => "this sort is faulty, or this term is not of the sort that is needed".to_string(),
        _ => "the grammar is not listed as declared, this rule is of another sort, or this non-terminal derives no term".to_string(),
    }
}

/// The limit that a word is past, where the word itself says which one it is.
fn limit(word: &str) -> &'static str {
    let is_digits = |text: &str| text.bytes().all(|digit| digit.is_ascii_digit());
    let numeral = is_digits(word);
    let constant = word.strip_prefix("bv").is_some_and(is_digits);
    let bits = match word.get(..2) {
        Some("#x") => 4 * (word.len() - 2),
        Some("#b") => word.len() - 2,
        _ => 0,
    };
    match bits {
        65.. => "a literal has at most 64 bits",
        _ if numeral && word.len() > 9 => "a numeral has at most 9 digits",
        _ if numeral && word.len() >= 5 => "a width is at most 64, and a weight at most 65,535",
        _ if numeral => "a width is at most 64",
        _ if word.len() > 64 => "a symbol has at most 64 bytes",
        _ if constant && word.len() > 22 => "a constant has at most 20 digits",
        _ => "docs/COMMAND.md lists the limits",
    }
}

/// Answer 0 in words.
fn accepted(facts: &Facts) -> String {
    let derived = match facts.given.read.synthesized.len() {
        1 => "the body is derived".to_string(),
        count => format!("all {count} bodies are derived"),
    };
    format!("{derived}; {}", evaluated(facts))
}

/// What was evaluated at an acceptance.
fn evaluated(facts: &Facts) -> String {
    let script = &facts.given.read;
    let assumed = !script.assumptions.is_empty();
    let guards = facts.guards.iter();
    let never = guards.filter(|(guard, _)| guard.held == 0).count();
    let never = match never {
        0 => String::new(),
        count => format!("; {} of => never held", counted(count as u64, "left side")),
    };
    let at = at_points(facts);
    match (script.constraints.len(), facts.done) {
        (0, 1..) if assumed => {
            "there is no constraint: only assumptions were evaluated".to_string()
        }
        (0, _) => "there is no constraint: nothing was evaluated".to_string(),
        (_, 0) => "constraints are checked at no point: nothing was evaluated".to_string(),
        _ if facts.answer.second == 0 => {
            format!("{}: no constraint was evaluated", held_nowhere(facts))
        }
        (1, _) => format!("the constraint holds{at}{never}"),
        (count, _) => format!("all {count} constraints hold{at}{never}"),
    }
}

/// At which points the constraints hold, and that the assumptions hold there.
fn at_points(facts: &Facts) -> String {
    let script = &facts.given.read;
    let hold = match script.assumptions.len() {
        1 => "the assumption holds",
        _ => "the assumptions hold",
    };
    match (script.variables.len(), script.assumptions.len()) {
        (0, 0) => String::new(),
        (0, _) => format!(", and {hold}"),
        (_, 0) => format!(" at {}", of_all_points(facts)),
        _ => format!(" at {}, where {hold}", of_points_done(facts)),
    }
}

/// That the assumptions hold at none of the points that were done.
fn held_nowhere(facts: &Facts) -> String {
    let script = &facts.given.read;
    let one = script.assumptions.len() == 1;
    match (script.variables.len(), one) {
        (0, true) => "the assumption does not hold".to_string(),
        (0, false) => "the assumptions do not all hold".to_string(),
        (_, true) => format!("the assumption holds at {}", of_points_done(facts)),
        (_, false) => format!("the assumptions hold at {}", of_points_done(facts)),
    }
}

/// How many points there are.
fn all_points(bits: u32) -> String {
    match bits {
        0..=MOST_WRITTEN_OUT => grouped(1 << bits),
        _ => format!("2^{bits}"),
    }
}

/// How many different points were done, and whether these are all.
fn points_done(facts: &Facts) -> (u64, bool) {
    let variables = &facts.given.read.variables;
    let done = match facts.given.points.origin {
        Origin::File(_) => facts.given.points.distinct(variables.len()),
        _ => facts.done,
    };
    let bits = bits(variables);
    (done, bits < 64 && done == 1 << bits)
}

/// How many points were done of how many.
fn of_all_points(facts: &Facts) -> String {
    let all = all_points(bits(&facts.given.read.variables));
    match points_done(facts) {
        (_, true) => format!("all {all} points"),
        (done, false) => format!("{} of {all} points", grouped(done)),
    }
}

/// At how many of the points that were done the assumptions hold, and of how many points these are where they are not all.
fn of_points_done(facts: &Facts) -> String {
    let all = all_points(bits(&facts.given.read.variables));
    let (held, done) = (facts.answer.second, grouped(facts.done));
    let (_, whole) = points_done(facts);
    match (held, whole) {
        (0, true) => format!("none of all {done} points"),
        (0, false) => format!("none of {done} points (of {all})"),
        (_, true) if held == facts.done => format!("all {done} points"),
        (_, true) => format!("{} of all {done} points", grouped(held)),
        (_, false) => format!("{} of {done} points (of {all})", grouped(held)),
    }
}

/// Whether some constraint was evaluated, and the left side of each `=>` held at some point.
pub fn thorough(facts: &Facts) -> bool {
    let evaluated = facts.answer.second > 0 && !facts.given.read.constraints.is_empty();
    evaluated && facts.guards.iter().all(|(guard, _)| guard.held > 0)
}

/// The exit status of the command.
pub fn status(facts: &Facts) -> u8 {
    match verdict(facts.answer.number) {
        Verdict::Accepted if facts.strict && !thorough(facts) => NOT_THOROUGH,
        verdict => verdict.status(),
    }
}

/// Answer 1 in words.
fn too_long(facts: &Facts) -> String {
    let length = facts.answer.place;
    match facts.answer.text {
        0 => format!("the script is too long: {length} bytes, at most {MOST_SCRIPT_BYTES}"),
        1 => format!("the response is too long: {length} bytes, at most {MOST_RESPONSE_BYTES}"),
        _ => format!("the point list is too long: {length} numbers, at most {MOST_NUMBERS}"),
    }
}

/// Answer 18 in words.
fn no_steps(facts: &Facts) -> String {
    let functions = &facts.given.read.synthesized;
    let number = facts.answer.place;
    match usize::try_from(number)
        .ok()
        .and_then(|index| functions.get(index))
    {
        Some(function) => format!(
            "the body of {} uses a define-fun: it has no steps for the controller",
            function.name
        ),
        None => {
            let count = counted(functions.len() as u64, "function");
            format!("the script has no function {number}: it has {count}, counted from 0")
        }
    }
}

/// Answer 16 in words.
fn bad_points(facts: &Facts) -> String {
    let numbers = &facts.given.points.listed;
    let variables = &facts.given.read.variables;
    let index = facts.answer.place as usize;
    let length = counted(index as u64, "number");
    let count = variables.len();
    match (numbers.get(index), variables.get(index % count.max(1))) {
        (Some(number), Some(Sorted { name, sort, .. })) => {
            let point = index / count;
            format!("{number} (number {index}, of point {point}) is no value of {name}, whose sort is {sort}")
        }
        _ if count == 0 => format!("the point list has {length}, but the script has no variables"),
        _ => format!("the point list has {length}, which do not make whole points of {count}"),
    }
}

#[cfg(test)]
mod tests {
    use super::*;

    #[test]
    fn verdicts() {
        let accepted = (0..=16).filter(|&number| verdict(number) == Verdict::Accepted);
        assert_eq!(accepted.collect::<Vec<u8>>(), [0]);
        let rejected = (0..=16).filter(|&number| verdict(number).status() == 1);
        assert_eq!(rejected.collect::<Vec<u8>>(), [10, 11, 12, 13, 14, 15]);
        assert_eq!((verdict(1).word(), verdict(16).status()), ("refused", 2));
        assert_eq!(verdict(15).word(), "undecided");
        let others = [17, 18, 19, 20, 21, 22].map(|number| verdict(number).status());
        assert_eq!(others, [2, 1, 2, 2, 2, 1]);
    }

    #[test]
    fn limits_that_a_word_shows() {
        let symbol = "s".repeat(65);
        let (digits, more) = ("9".repeat(21), "9".repeat(63));
        let (constant, longer) = (format!("bv{digits}"), format!("bv{more}"));
        for (word, limit) in [
            ("1234567890", "a numeral has at most 9 digits"),
            ("65", "a width is at most 64"),
            (
                "65536",
                "a width is at most 64, and a weight at most 65,535",
            ),
            ("#x00000000000000000", "a literal has at most 64 bits"),
            (symbol.as_str(), "a symbol has at most 64 bytes"),
            (constant.as_str(), "a constant has at most 20 digits"),
            (longer.as_str(), "a symbol has at most 64 bytes"),
            ("bv5", "docs/COMMAND.md lists the limits"),
            ("(", "docs/COMMAND.md lists the limits"),
        ] {
            assert!(refusal(4, "script", word).ends_with(limit), "{word}");
        }
        assert!(refusal(2, "script", &symbol).starts_with("`ssss"));
    }
}
