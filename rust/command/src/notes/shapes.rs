//! Answers 5 and 6: the inner word that has no known shape, or the list that is not carried.

use super::near::meant;
use super::{Hint, Reading};
use simple::commands::{is_begun_by_mark, list_not_carried, rule_form};
use simple::constants::digits_after_bv;
use simple::terms::{is_sort, is_term, CARRIED_COMMANDS, OTHER_COMMANDS};
use simple::tree::Tree;
use simple::words::{ATTRIBUTE, FEATURE};

/// What a sort looks like.
pub const SORTS: &str = "a sort is `Bool` or `(_ BitVec n)`";
/// What a weighted rule looks like.
const WEIGHTED: &str = "a rule with a weight is `(! TERM :weight N)`, where N is a numeral";
/// A list that is longer is named by its beginning.
const MOST_SHOWN: usize = 40;

/// The inner cause of answer 5 or 6.
pub fn hint(reading: &Reading, number: u8) -> Option<Hint> {
    if reading.place == reading.bytes.len() && !reading.in_response {
        return Some(Hint::general("a script ends with `(check-synth)`"));
    }
    if number == 6 {
        return not_carried(reading, reading.faulty?);
    }
    let list = reading.trees.first().filter(|_| reading.in_response);
    if list.is_some_and(|list| list.end() <= reading.place) {
        return Some(Hint::general("a response is one list, and nothing follows it"));
    }
    command(reading, reading.faulty?)
}

/// What is not carried in a command.
fn not_carried(reading: &Reading, tree: &Tree) -> Option<Hint> {
    let items = tree.items()?;
    let head = items.first()?;
    let name = head.symbol()?;
    if OTHER_COMMANDS.contains(&name) {
        return Some(Hint::at(head, format!("the command `{name}` is not carried")));
    }
    if name == "set-logic" {
        let logic = items.get(1)?;
        return Some(Hint::at(logic, format!("the logic `{logic}` is not carried: the logic is `BV`")));
    }
    if name == "synth-fun" && items.len() == 4 {
        return Some(Hint::at(head, "a `synth-fun` without a grammar is not carried"));
    }
    let weights = reading.script.weights && !reading.in_response;
    let Some(place) = list_not_carried(tree, weights).first().copied() else {
        return other_feature(items);
    };
    let list = list_at(tree, place)?;
    Some(Hint::at(list, format!("{} is not carried{}", named(list), instead(reading, list))))
}

/// What is wrong with a `set-feature` that sets anything but the weights to true.
fn other_feature(items: &[Tree]) -> Option<Hint> {
    match items {
        [_, feature, value] if feature.keyword() == Some(FEATURE) => Some(Hint::at(
            value,
            format!("`{FEATURE}` set to `{value}` is not carried: leave the command out, and no rule has a weight"),
        )),
        [_, feature, _] => Some(Hint::at(feature, format!("the feature `{feature}` is not carried: the only one is `{FEATURE}`"))),
        _ => None,
    }
}

/// The list that begins at a place of a tree.
fn list_at(tree: &Tree, place: usize) -> Option<&Tree> {
    match tree.start() == place {
        true => Some(tree),
        false => tree.items()?.iter().find_map(|item| list_at(item, place)),
    }
}

/// A list by its words, a long one by its first.
fn named(list: &Tree) -> String {
    let words = list.to_string();
    let head = list.items().and_then(<[Tree]>::first);
    match head.and_then(Tree::symbol) {
        Some(head) if head != "_" || words.len() > MOST_SHOWN => format!("`{head}`"),
        _ => format!("`{words}`"),
    }
}

/// What to do about a list that is not carried.
fn instead(reading: &Reading, list: &Tree) -> &'static str {
    let symbol = |index: usize| list.items().and_then(|items| items.get(index)?.symbol());
    match (symbol(0), symbol(1)) {
        (Some("let"), _) if reading.in_response => ": cvc5 prints none with --dag-thresh=0",
        (Some("let"), _) => ": write the term out, or as a `define-fun`",
        (Some("_"), Some(name)) if is_numbered(name) => ": in `(_ bvN n)` the number N is `0`, or digits that do not begin with 0",
        (Some("_"), _) => ": docs/LANGUAGE.md says what to write instead",
        (Some("!"), _) if reading.in_response => "",
        (Some("!"), _) if reading.script.weights => ": only a whole rule is written `(! TERM :weight N)`",
        (Some("!"), _) if is_weighted(list) => ": rules have weights after `(set-feature :weights true)`, straight after the logic line",
        _ => "",
    }
}

/// Whether a list has the keyword of a weight.
fn is_weighted(list: &Tree) -> bool {
    let mut items = list.items().into_iter().flatten();
    items.any(|item| item.keyword() == Some(ATTRIBUTE))
}

/// Whether a name is `bv` with digits or none.
fn is_numbered(name: &str) -> bool {
    let digits = name.strip_prefix("bv");
    digits.is_some_and(|digits| digits.bytes().all(|digit| digit.is_ascii_digit()))
}

/// Whether the items of a list begin as those of a constant `(_ bvN n)`.
fn begins_constant(items: &[Tree]) -> bool {
    let mark = items.first().and_then(Tree::symbol);
    mark == Some("_") && items.get(1).and_then(digits_after_bv).is_some()
}

/// What is wrong with the shape or the order of a command.
fn command(reading: &Reading, tree: &Tree) -> Option<Hint> {
    let items = tree.items()?;
    let Some(head) = items.first() else {
        return Some(Hint::at(tree, "this list is empty: a command begins with its name"));
    };
    let known = CARRIED_COMMANDS.into_iter().filter(|one| !reading.in_response || *one == "define-fun");
    let Some(name) = head.symbol().filter(|name| known.clone().any(|one| one == *name)) else {
        let meant = head.symbol().and_then(|name| meant(name, known));
        return Some(match (meant, reading.in_response) {
            (Some(meant), _) => Hint::at(head, format!("no command is called `{head}`: did you mean `{meant}`?")),
            (None, true) => Hint::at(head, "a response has `(define-fun NAME (ARGUMENTS) SORT TERM)` alone"),
            (None, false) => Hint::at(head, format!("no command is called `{head}`: docs/LANGUAGE.md lists them")),
        });
    };
    form(name, tree, items).or_else(|| out_of_place(reading, name, head))
}

/// The first part of a command that does not have its form.
fn form(name: &str, tree: &Tree, items: &[Tree]) -> Option<Hint> {
    let (form, parts): (&str, &[fn(&Tree) -> Option<Hint>]) = match name {
        "set-logic" => ("(set-logic BV)", &[name_misfit]),
        "set-feature" => ("(set-feature :weights true)", &[feature_misfit, truth_misfit]),
        "declare-var" => ("(declare-var NAME SORT)", &[name_misfit, sort_misfit]),
        "define-fun" => (
            "(define-fun NAME (ARGUMENTS) SORT TERM)",
            &[name_misfit, pairs_misfit, sort_misfit, term_misfit],
        ),
        "synth-fun" => (
            "(synth-fun NAME (ARGUMENTS) SORT ((NONTERMINAL SORT) ..) ((NONTERMINAL SORT (RULE ..)) ..))",
            &[name_misfit, pairs_misfit, sort_misfit, pairs_misfit, groups_misfit],
        ),
        "constraint" => ("(constraint TERM)", &[term_misfit]),
        "assume" => ("(assume TERM)", &[term_misfit]),
        _ => ("(check-synth)", &[]),
    };
    let mut misfits = items[1..].iter().zip(parts).filter_map(|(item, part)| part(item));
    let count = || (items.len() != parts.len() + 1).then(|| Hint::at(tree, format!("the form is `{form}`")));
    misfits.next().or_else(count)
}

/// A command of a script that has its form, but not its place.
fn out_of_place(reading: &Reading, name: &str, head: &Tree) -> Option<Hint> {
    let index = reading.trees.iter().position(|tree| tree.start() == reading.place)?;
    let before = &reading.trees[..index];
    let ended = before.iter().any(|tree| {
        let first = tree.items().and_then(<[Tree]>::first);
        first.and_then(Tree::symbol) == Some("check-synth")
    });
    let message = match name {
        _ if ended => "nothing may follow `(check-synth)`",
        "set-logic" => "`set-logic` stands once, as the first command",
        "set-feature" => "`set-feature` stands once, straight after `(set-logic BV)`",
        _ if index == 0 => "the first command is `(set-logic BV)`",
        _ => "no `synth-fun` stands before this",
    };
    Some(Hint::at(head, message))
}

/// What is wrong where a name stands.
fn name_misfit(tree: &Tree) -> Option<Hint> {
    let misfit = tree.symbol().is_none();
    misfit.then(|| Hint::at(tree, "a name is needed here"))
}

/// What is wrong where a feature stands.
fn feature_misfit(tree: &Tree) -> Option<Hint> {
    let misfit = tree.keyword().is_none();
    misfit.then(|| Hint::at(tree, format!("the feature `{FEATURE}` is needed here")))
}

/// What is wrong where the value of a feature stands.
fn truth_misfit(tree: &Tree) -> Option<Hint> {
    let misfit = !matches!(tree.symbol(), Some("true" | "false"));
    misfit.then(|| Hint::at(tree, "`true` is needed here"))
}

/// What is wrong where a sort stands.
fn sort_misfit(tree: &Tree) -> Option<Hint> {
    (!is_sort(tree)).then(|| Hint::at(tree, SORTS))
}

/// What is wrong where `((NAME SORT) ..)` stands.
fn pairs_misfit(tree: &Tree) -> Option<Hint> {
    let Some(items) = tree.items() else {
        return Some(Hint::at(tree, "a list `((NAME SORT) ..)` is needed here"));
    };
    items.iter().find_map(|item| match item.items() {
        Some([name, sort]) => name_misfit(name).or_else(|| sort_misfit(sort)),
        _ => Some(Hint::at(item, "a pair `(NAME SORT)` is needed here")),
    })
}

/// What is wrong where the list of the rules of all non-terminals stands.
fn groups_misfit(tree: &Tree) -> Option<Hint> {
    let Some(items) = tree.items() else {
        return Some(Hint::at(tree, "a list `((NONTERMINAL SORT (RULE ..)) ..)` is needed here"));
    };
    items.iter().find_map(|item| match item.items() {
        Some([name, sort, rules]) => name_misfit(name)
            .or_else(|| sort_misfit(sort))
            .or_else(|| rules_misfit(rules)),
        _ => Some(Hint::at(item, "`(NONTERMINAL SORT (RULE ..))` is needed here")),
    })
}

/// What is wrong where the list of the rules of a non-terminal stands.
fn rules_misfit(tree: &Tree) -> Option<Hint> {
    let Some(items) = tree.items() else {
        return Some(Hint::at(tree, "a list of rules is needed here"));
    };
    items.iter().find_map(rule_misfit)
}

/// What is wrong where a rule stands.
fn rule_misfit(rule: &Tree) -> Option<Hint> {
    if rule_form(rule).is_some() {
        return None;
    }
    match rule.items() {
        Some([head, sort]) if is_any(head) => sort_misfit(sort),
        Some([head, ..]) if is_any(head) => Some(Hint::at(rule, format!("the form is `({head} SORT)`"))),
        Some([_, term, ..]) if is_begun_by_mark(rule) && !is_term(term) => term_misfit(term),
        Some(_) if is_begun_by_mark(rule) => Some(Hint::at(rule, WEIGHTED)),
        _ => term_misfit(rule),
    }
}

/// Whether a word is `Constant` or `Variable`.
fn is_any(head: &Tree) -> bool {
    matches!(head.symbol(), Some("Constant" | "Variable"))
}

/// What is wrong where a term stands: the innermost part that is none.
fn term_misfit(term: &Tree) -> Option<Hint> {
    if is_term(term) {
        return None;
    }
    let Some(items) = term.items() else {
        return Some(Hint::at(term, format!("`{term}` is no term: {WEIGHTED}")));
    };
    let inner = items.iter().skip(1).find_map(term_misfit);
    let head = items.first().and_then(Tree::symbol);
    Some(match (head, items.len()) {
        (_, 0) => Hint::at(term, "an empty list is no term"),
        (Some("_"), _) if begins_constant(items) => Hint::at(term, "a constant is `(_ bvN n)`: its value, and its width as a numeral"),
        (Some("_"), _) => Hint::at(term, format!("`{term}` is no term")),
        (Some("Constant" | "Variable"), _) => Hint::at(term, format!("`{term}` may be a rule, but not a part of a term")),
        (Some("true" | "false"), _) => Hint::at(term, "a term does not begin with a literal"),
        (None, _) => inner.unwrap_or_else(|| Hint::at(&items[0], "a term begins with the name of an operator or a function")),
        (Some(name), 1) => Hint::at(term, format!("`{name}` has no operands here: write it without brackets")),
        _ => inner?,
    })
}
