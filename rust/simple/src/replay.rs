//! A list of rule numbers followed without a search: it is replayed, leftmost first, on the words of the body. So the lent area is judged, and an evidence file
//! is checked.

use crate::grammar::{Form, Sorted};
use crate::operators::Sort;
use crate::script::{self, Synthesized};
use crate::tree::Tree;
use crate::{response, AREA_LENGTH, LIST_LENGTH, UNUSED};
use std::collections::HashSet;

/// Why a list of rules does not derive a body.
#[derive(Clone, Debug, PartialEq, Eq)]
pub enum Break {
    /// The rules give another word than the body has at this place.
    Word(usize),
    /// A non-terminal is used a second time at this place.
    Twice(usize),
    /// The list ends early.
    Ended,
    /// This number is no rule of the leftmost non-terminal.
    NoRule(u16),
    /// The rule of this number derives literals or arguments of a sort, and not what the body has.
    Underived(u16),
    /// The body has words left, or the list rules.
    Left,
}

/// What is wrong with an area of the right size after an answer to a script and a response; none if nothing is.
pub fn area_fault(script: &[u8], response: &[u8], number: u8, area: &[u16]) -> Option<String> {
    if area.len() != AREA_LENGTH {
        return Some(format!("an area of {} entries", area.len()));
    }
    if !matches!(number, 0 | 14 | 15) {
        let used = area.iter().position(|&entry| entry != UNUSED)?;
        return Some(format!("entry {used} is used after answer {number}"));
    }
    let script = script::read(script).expect("a sound script after 0, 14 or 15");
    let bodies = response::read(response, &script).expect("a sound response after 0, 14 or 15");
    for (index, list) in area.chunks(LIST_LENGTH).enumerate() {
        let length = list.iter().position(|&entry| entry == UNUSED);
        let (shown, rest) = list.split_at(length.unwrap_or(LIST_LENGTH));
        if rest.iter().any(|&entry| entry != UNUSED) {
            return Some(format!("list {index} has a gap"));
        }
        match (script.synthesized.get(index), bodies.get(index)) {
            (Some(function), Some(body)) => {
                if let Err(fault) = replay(function, body, shown) {
                    return Some(format!("list {index}: {fault:?}"));
                }
            }
            _ if !shown.is_empty() => return Some(format!("list {index} has no function")),
            _ => {}
        }
    }
    None
}

/// Replaces the leftmost non-terminal by the next rule of the list, from the start on, and compares the words with the body's, which are counted from 0;
/// "No non-terminal is used twice at the same place of the body".
pub fn replay(function: &Synthesized, body: &Tree, list: &[u16]) -> Result<(), Break> {
    let grammar = &function.grammar;
    let mut body = spelt(body).into_iter().peekable();
    let mut place = 0;
    let mut list = list.iter();
    let mut used = HashSet::new();
    let mut pending = vec![grammar.nonterminals[0].name.clone()];
    while let Some(word) = pending.pop() {
        let nonterminal = grammar.nonterminals.iter().position(|one| one.name == word);
        let Some(nonterminal) = nonterminal else {
            if body.next().as_ref() != Some(&word) {
                return Err(Break::Word(place));
            }
            place += 1;
            continue;
        };
        if !used.insert((place, nonterminal)) {
            return Err(Break::Twice(place));
        }
        let &number = list.next().ok_or(Break::Ended)?;
        let rule = grammar.rules.get(usize::from(number));
        let rule = rule.filter(|rule| rule.nonterminal == nonterminal);
        let rule = rule.ok_or(Break::NoRule(number))?;
        let given = body.peek().map_or("", String::as_str);
        match &rule.form {
            Form::Term(term) => pending.extend(spelt(term).into_iter().rev()),
            Form::Constant(sort) if is_literal(given, *sort) => pending.push(given.to_string()),
            Form::Variable(sort) if is_argument(given, *sort, &function.arguments) => {
                pending.push(given.to_string());
            }
            _ => return Err(Break::Underived(number)),
        }
    }
    match (body.next(), list.next()) {
        (None, None) => Ok(()),
        _ => Err(Break::Left),
    }
}

/// The words of a term without fault, each literal of bits as one word that begins with `#b`: "A literal is its value and width:
/// case, `#x` or `#b` make no difference. Carry `(_ bv15 8)` too".
fn spelt(term: &Tree) -> Vec<String> {
    let words: Vec<&str> = term.words().into_iter().map(|(_, word)| word).collect();
    let mut spelt = Vec::new();
    let mut rest = &words[..];
    while let Some((first, after_first)) = rest.split_first() {
        let (word, after) = match rest {
            ["(", "_", word, width, ")", after @ ..] => (constant_in_binary(word, width), after),
            _ => (word_in_binary(first), after_first),
        };
        spelt.push(word);
        rest = after;
    }
    spelt
}

/// A word of bits in binary, another word as it is.
fn word_in_binary(word: &str) -> String {
    let digit = |digit: char| format!("{:04b}", digit.to_digit(16).expect("a hex digit"));
    match word.strip_prefix("#x") {
        Some(digits) => format!("#b{}", digits.chars().map(digit).collect::<String>()),
        None => word.to_string(),
    }
}

/// The binary word of a constant, by its word bvN and its width.
fn constant_in_binary(word: &str, width: &str) -> String {
    let value: u64 = word[2..].parse().expect("a number below 2^64");
    let width: usize = width.parse().expect("a width");
    format!("#b{value:0width$b}")
}

/// "`(Constant σ)` derives any literal of sort σ".
pub fn is_literal(word: &str, sort: Sort) -> bool {
    match sort {
        Sort::Bool => word == "true" || word == "false",
        Sort::BitVec(width) => {
            let digits = word.len().saturating_sub(2) as u32;
            let hex = word.starts_with("#x") && digits * 4 == width;
            hex || word.starts_with("#b") && digits == width
        }
    }
}

/// "`(Variable σ)` any argument of that function of sort σ".
pub fn is_argument(word: &str, sort: Sort, arguments: &[Sorted]) -> bool {
    let mut arguments = arguments.iter();
    arguments.any(|argument| argument.name == word && argument.sort == sort)
}
