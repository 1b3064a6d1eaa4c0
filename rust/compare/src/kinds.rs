//! What the cases must bring besides every answer, so that a wrong checker is told apart.

use simple::commands::{command, Command};
use simple::eval::whole_points;
use simple::generate::Case;
use simple::grammar::{derivation, Grammar, Rule};
use simple::tree::{trees, Tree};
use simple::{response, script, words, FIRST_ASSUMPTION};
use std::collections::HashSet;
use sverdhyll::Answer;

/// How many kinds there are.
pub const KINDS: usize = 13;

/// The names of the kinds.
pub const NAMES: [&str; KINDS] = [
    "answer 0 with points skipped",
    "answer 15 before an assumption",
    "a name that an earlier command has taken",
    "a name that its own command has taken",
    "a non-terminal that derives no term",
    "a non-terminal that derives terms only through others",
    "a derivation shown for its rule numbers",
    "a derivation shown for its weight",
    "a place behind the first line",
    "a place behind byte 13 in its line",
    "a place behind a byte above 127 in its line",
    "a place at a text's end behind byte 10",
    "a place at a text's end behind another byte",
];

/// Of which kinds a case with its answer is.
pub fn kinds(case: &Case, answer: &Answer) -> [bool; KINDS] {
    let before_assumption = answer.number == 15 && answer.second >= FIRST_ASSUMPTION as u64;
    let [taken_earlier, taken_within] = taken_kinds(case, answer);
    let [by_numbers, by_weight] = shown_kinds(case, answer);
    let [later, behind_13, behind_above_127, line_ended, ended] = place_kinds(case, answer);
    [
        points_skipped(case, answer),
        before_assumption,
        taken_earlier,
        taken_within,
        dead(case, answer),
        leaning(case, answer),
        by_numbers,
        by_weight,
        later,
        behind_13,
        behind_above_127,
        line_ended,
        ended,
    ]
}

/// Whether fewer points are counted than there are: "Answer 0's second number now counts the points whose assumptions all held."
fn points_skipped(case: &Case, answer: &Answer) -> bool {
    if answer.number != 0 {
        return false;
    }
    let script = script::read(&case.script).expect("a sound script after 0");
    let points = whole_points(&case.points, &script.variables);
    answer.second < points.len() as u64
}

/// Whether a name is taken, and where the declaration stands that the second number names: in an earlier command or in the same one.
fn taken_kinds(case: &Case, answer: &Answer) -> [bool; 2] {
    if answer.number != 7 || answer.second == 0 {
        return [false; 2];
    }
    let [place, declared] = [answer.place, answer.second].map(|at| at as usize);
    let command = command_at(&case.script, place);
    let within = declared > command.start();
    [!within, within]
}

/// The command of a script with sound words that holds a place.
fn command_at(script: &[u8], place: usize) -> Tree {
    let words = words::read(script, script::MOST_WORDS).expect("sound words");
    let holds = |tree: &Tree| (tree.start()..tree.end()).contains(&place);
    trees(words).into_iter().find(holds).expect("a command")
}

/// Whether a non-terminal is refused because it derives no term.
fn dead(case: &Case, answer: &Answer) -> bool {
    if answer.number != 9 {
        return false;
    }
    let place = answer.place as usize;
    match command(&command_at(&case.script, place)) {
        Some(Command::SynthFun(synth)) => script::dead_at(&synth, place).is_some(),
        _ => false,
    }
}

/// Whether a script passes in which some non-terminal has no rule that leads to a term without another one.
fn leaning(case: &Case, answer: &Answer) -> bool {
    if !matches!(answer.number, 0 | 13..=16) {
        return false;
    }
    let script = script::read(&case.script).expect("a sound script");
    script.synthesized.iter().any(|function| {
        let (grammar, arguments) = (&function.grammar, &function.arguments);
        let none = vec![false; grammar.nonterminals.len()];
        let alone = |rule: &&Rule| grammar.leads_to_term(&rule.form, arguments, &none);
        let alone = grammar.rules.iter().filter(alone);
        let alone: HashSet<usize> = alone.map(|rule| rule.nonterminal).collect();
        alone.len() < none.len()
    })
}

/// Whether another derivation of a body would be shown if the rules of a grammar were numbered from the last to the first, and if none had a weight.
fn shown_kinds(case: &Case, answer: &Answer) -> [bool; 2] {
    if !matches!(answer.number, 0 | 14 | 15) {
        return [false; 2];
    }
    let script = script::read(&case.script).expect("a sound script");
    let bodies = response::read(&case.response, &script).expect("a sound response");
    let functions = script.synthesized.iter().zip(&bodies);
    let mut kinds = [false; 2];
    for (function, body) in functions {
        let rules =
            |grammar: &Grammar| derivation(grammar, &function.arguments, body).map(|one| one.rules);
        let (mut backwards, mut unweighted) = (function.grammar.clone(), function.grammar.clone());
        backwards.rules.reverse();
        unweighted.rules.iter_mut().for_each(|rule| rule.weight = 0);
        let last = function.grammar.rules.len() as u16 - 1;
        let shown = rules(&function.grammar);
        let renumbered = |rules: Vec<u16>| rules.iter().map(|number| last - number).collect();
        kinds[0] |= rules(&backwards).map(renumbered) != shown;
        kinds[1] |= rules(&unweighted) != shown;
    }
    kinds
}

/// Of which kinds the place of an answer is that carries a line and a column.
fn place_kinds(case: &Case, answer: &Answer) -> [bool; 5] {
    let text = match (answer.line, answer.text) {
        (0, _) => return [false; 5],
        (_, 0) => &case.script,
        _ => &case.response,
    };
    let before = &text[..answer.place as usize];
    let line_start = before.iter().rposition(|&byte| byte == b'\n');
    let line = &before[line_start.map_or(0, |at| at + 1)..];
    let at_end = before.len() == text.len();
    [
        line_start.is_some(),
        line.contains(&b'\r'),
        line.iter().any(|&byte| byte > 127),
        at_end && line_start.is_some() && line.is_empty(),
        at_end && !line.is_empty(),
    ]
}
