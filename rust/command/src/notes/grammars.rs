//! Answer 9: what a grammar should list, the sort that a rule should have, and why a non-terminal derives no term.

use super::names::seen;
use super::{Cause, Hint, Reading};
use simple::commands::{command, Command, Group, Pair, SynthFun};
use simple::grammar::{Form, Grammar};
use simple::operators::Sort;
use simple::script::{arguments, dead_at, grammar, rule_sort};
use simple::terms::sort;
use simple::tree::Tree;

/// A rule is shown in a sentence if it has at most so many bytes.
const MOST_SHOWN: usize = 60;

/// The fault of the grammar at the place.
pub fn cause(reading: &Reading) -> Option<Cause> {
    let tree = reading.faulty?;
    let Some(Command::SynthFun(synth)) = command(tree) else {
        return None;
    };
    let place = reading.place;
    if let Some(index) = dead_at(&synth, place).filter(|_| synth.groups.len() == synth.predeclared.len()) {
        return Some(dead(&synth, index));
    }
    let in_rules = || synth.groups.iter().find_map(|group| rule_fault(reading, group));
    let in_list = || {
        let groups = synth.groups.iter().enumerate();
        groups.filter(|(_, group)| group.name.start() == place).map(|(index, group)| list_fault(&synth.predeclared, index, group)).next()
    };
    start_fault(&synth, place).or_else(in_list).or_else(in_rules).map(Cause::said)
}

/// The fault of the non-terminals that are declared, or of one that is not listed.
fn start_fault(synth: &SynthFun, place: usize) -> Option<String> {
    let start = synth.predeclared.first();
    if place == synth.predeclared_close {
        return Some("the grammar declares no non-terminal".to_string());
    }
    if let Some(start) = start.filter(|start| start.name.start() == place) {
        let (found, expected) = (sort(start.sort), sort(synth.header.sort));
        return Some(format!("the first non-terminal {} has the sort {found}, its function {expected}", start.name));
    }
    let missing = synth.predeclared.get(synth.groups.len()).filter(|_| place == synth.groups_close);
    missing.map(|pair| format!("the rules of {} are missing", pair.name))
}

/// Why a rule leads to no term, and the rules behind it of which the same is to be said.
struct Reason<'a> {
    rule: &'a Tree,
    named: String,
    lacks: String,
    others: Vec<usize>,
}

impl Reason<'_> {
    /// The note at the rule, which names the others too.
    fn hint(&self) -> Hint {
        let also = match &self.others[..] {
            [] => String::new(),
            [one] => format!("; the same holds for rule {one}"),
            many => format!("; the same holds for rules {}", in_row(many)),
        };
        Hint::at(self.rule, format!("{} {}{also}", self.named, self.lacks))
    }
}

/// A non-terminal that derives no term, and why each of its rules leads to none.
fn dead(synth: &SynthFun, index: usize) -> Cause {
    let grammar = grammar(synth);
    let fruitful = grammar.fruitful(&arguments(&synth.header));
    let own = grammar.rules.iter().enumerate().filter(|(_, rule)| rule.nonterminal == index);
    let rules = synth.groups[index].rules;
    let mut reasons: Vec<Reason> = Vec::new();
    for (tree, (number, rule)) in rules.iter().zip(own) {
        let (named, lacks) = match &rule.form {
            Form::Term(term) => (numbered(number, &rule.form), needs(&grammar, &fruitful, index, term)),
            form => (format!("rule {number}, {form}:"), format!("{} has no argument of this sort", synth.header.name)),
        };
        match reasons.iter_mut().find(|one| one.lacks == lacks) {
            Some(same) => same.others.push(number),
            None => reasons.push(Reason {
                rule: tree,
                named,
                lacks,
                others: Vec::new(),
            }),
        }
    }
    let name = synth.predeclared[index].name;
    let none = if rules.len() == 1 { "its rule does not lead" } else { "none of its rules leads" };
    Cause {
        sentence: Some(format!("the non-terminal {name} derives no term: {none} to one")),
        hints: reasons.iter().map(Reason::hint).collect(),
    }
}

/// Rising numbers in a row, of three or more that follow one another the first and the last.
fn in_row(numbers: &[usize]) -> String {
    let mut runs: Vec<(usize, usize)> = Vec::new();
    for &number in numbers {
        match runs.last_mut() {
            Some((_, last)) if *last + 1 == number => *last = number,
            _ => runs.push((number, number)),
        }
    }
    let said = runs.iter().flat_map(|&(first, last)| match last - first {
        0 => vec![first.to_string()],
        1 => vec![first.to_string(), last.to_string()],
        _ => vec![format!("{first} to {last}")],
    });
    match &said.collect::<Vec<String>>()[..] {
        [before @ .., last] if !before.is_empty() => format!("{} and {last}", before.join(", ")),
        said => said.concat(),
    }
}

/// The number of a rule, with the rule itself where it is short.
fn numbered(number: usize, form: &Form) -> String {
    match form.to_string() {
        text if text.len() <= MOST_SHOWN => format!("rule {number}, {text},"),
        _ => format!("rule {number}"),
    }
}

/// Which non-terminals that derive no term a rule of one of them needs.
fn needs(grammar: &Grammar, fruitful: &[bool], own: usize, term: &Tree) -> String {
    let mut needed = grammar.needed(term);
    needed.retain(|&one| !fruitful[one]);
    needed.sort_unstable();
    needed.dedup();
    let name = |&one: &usize| match one == own {
        true => format!("{} itself", grammar.nonterminals[one].name),
        false => grammar.nonterminals[one].name.clone(),
    };
    let names: Vec<String> = needed.iter().map(name).collect();
    let derive = match &needed[..] {
        [one] if *one == own => "",
        [_] => ", which derives no term",
        _ => ", which derive no term",
    };
    format!("needs {}{derive}", names.join(" and "))
}

/// The fault of a non-terminal that is not listed as it is declared.
fn list_fault(declared: &[Pair], index: usize, group: &Group) -> String {
    match declared.get(index) {
        Some(pair) => format!(
            "expected the rules of {} of sort {}, found {} of sort {}: non-terminals are listed as they are declared",
            pair.name, pair.sort, group.name, group.sort
        ),
        None => format!("{} is not declared as a non-terminal", group.name),
    }
}

/// The fault of a rule of another sort, or of a list without rules.
fn rule_fault(reading: &Reading, group: &Group) -> Option<String> {
    if group.close == reading.place {
        return Some(format!("{} has no rule", group.name));
    }
    let rule = group.rules.iter().find(|rule| rule.start() == reading.place)?;
    let found = rule_sort(rule, &seen(reading, reading.faulty?));
    let name = group.name;
    Some(match (found, sort(group.sort)) {
        (Sort::BitVec(found), Sort::BitVec(expected)) => {
            format!("this rule has width {found}, its non-terminal {name} has {expected}")
        }
        (found, expected) => format!("this rule has the sort {found}, its non-terminal {name} has {expected}"),
    })
}

#[cfg(test)]
mod tests {
    use super::in_row;

    #[test]
    fn rows_of_numbers() {
        for (numbers, said) in [
            (vec![3], "3"),
            (vec![3, 4], "3 and 4"),
            (vec![3, 4, 5], "3 to 5"),
            (vec![1, 3, 4, 6, 7, 8, 10], "1, 3, 4, 6 to 8 and 10"),
            (vec![0, 1, 2, 9, 10, 11], "0 to 2 and 9 to 11"),
        ] {
            assert_eq!(in_row(&numbers), said);
        }
    }
}
