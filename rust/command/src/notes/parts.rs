//! Answer 13: the smallest part of a body that is not derived at its place.

use super::Hint;
use crate::answers::counted;
use crate::pieces::pieces;
use simple::eval::literal_value;
use simple::grammar::{Form, Grammar, Rule, Search};
use simple::operands;
use simple::script::Synthesized;
use simple::terms::literal_sort;
use simple::tree::Tree;
use std::collections::HashMap;

/// So many literals are listed.
const MOST_LISTED: usize = 8;

/// A part of a body that is not what its place wants.
#[derive(Clone)]
struct Part<'a> {
    node: &'a Tree,
    /// A non-terminal, or the part of a rule that stands there.
    wanted: Wanted<'a>,
}

/// What a place wants.
#[derive(Clone, Copy)]
enum Wanted<'a> {
    Nonterminal(usize),
    Words(&'a Tree),
}

/// The search for the smallest part.
struct Blame<'a> {
    grammar: &'a Grammar,
    search: Search<'a>,
    found: HashMap<(usize, usize), Part<'a>>,
}

/// The smallest part of a body that no rule derives at its place, and what could stand there in the place of a literal or of its operands.
pub fn hints(function: &Synthesized, body: &Tree) -> Vec<Hint> {
    let mut blame = Blame {
        grammar: &function.grammar,
        search: Search::new(&function.grammar, &function.arguments, body),
        found: HashMap::new(),
    };
    if blame.search.has(0, body) {
        return Vec::new();
    }
    let part = blame.at(0, body);
    let wanted = match part.wanted {
        Wanted::Nonterminal(index) => {
            format!("no rule of `{}` derives this part, which must come from it", function.grammar.nonterminals[index].name)
        }
        Wanted::Words(words) => format!("the rule has `{words}` in this place"),
    };
    let mut hints = vec![Hint::at(part.node, wanted)];
    let more = blame.about_literal(&part).or_else(|| blame.about_count(&part));
    hints.extend(more.map(|message| Hint::at(part.node, message)));
    hints
}

/// Whether two terms without non-terminals are the same: literals by value and width, all else as it is written.
fn same(term: &Tree, node: &Tree) -> bool {
    match (literal_value(term), literal_value(node)) {
        (None, None) => term.same_words(node),
        (term, node) => term == node,
    }
}

impl<'a> Blame<'a> {
    /// The smallest part of a node that hinders a non-terminal from deriving it.
    fn at(&mut self, nonterminal: usize, node: &'a Tree) -> Part<'a> {
        let key = (nonterminal, node.start());
        if let Some(part) = self.found.get(&key) {
            return part.clone();
        }
        let wanted = Wanted::Nonterminal(nonterminal);
        let mut least = Part { node, wanted };
        for rule in self.rules(nonterminal) {
            let part = match &rule.form {
                Form::Term(term) if self.alike(term, node) => self.within(term, node),
                _ => None,
            };
            if let Some(part) = part.filter(|part| size(part.node) < size(least.node)) {
                least = part;
            }
        }
        self.found.insert(key, least.clone());
        least
    }

    /// The rules of a non-terminal, and of those that are the whole of such a rule.
    fn rules(&self, nonterminal: usize) -> Vec<&'a Rule> {
        let mut reached = Vec::new();
        self.reach(nonterminal, &mut reached);
        let rules = self.grammar.rules.iter();
        rules.filter(|rule| reached.contains(&rule.nonterminal)).collect()
    }

    /// Adds a non-terminal and those that are the whole of one of its rules.
    fn reach(&self, nonterminal: usize, reached: &mut Vec<usize>) {
        if reached.contains(&nonterminal) {
            return;
        }
        reached.push(nonterminal);
        let rules = self.grammar.rules.iter();
        let own = rules.filter(|rule| rule.nonterminal == nonterminal);
        own.filter_map(|rule| self.search.chain(rule)).for_each(|next| self.reach(next, reached));
    }

    /// Whether a rule's term and a node are applications of the same head to as many operands.
    fn alike(&self, term: &Tree, node: &Tree) -> bool {
        match (operands(term), operands(node), term.items(), node.items()) {
            ([], ..) => false,
            (own, other, Some(term), Some(node)) => own.len() == other.len() && term[0].same_words(&node[0]),
            _ => false,
        }
    }

    /// The smallest part of a node's first operand that is not what a rule's term has there.
    fn within(&mut self, term: &'a Tree, node: &'a Tree) -> Option<Part<'a>> {
        if let Some(nonterminal) = self.grammar.nonterminal(term) {
            let derived = self.search.has(nonterminal, node);
            return (!derived).then(|| self.at(nonterminal, node));
        }
        if !self.alike(term, node) {
            let wanted = Wanted::Words(term);
            return (!same(term, node)).then_some(Part { node, wanted });
        }
        let mut pairs = operands(term).iter().zip(operands(node));
        pairs.find_map(|(term, node)| self.within(term, node))
    }

    /// What the place of a literal wants: another sort, or one of the literals that stand in rules.
    fn about_literal(&self, part: &Part) -> Option<String> {
        let found = literal_sort(part.node)?;
        let (wanted, index) = match part.wanted {
            Wanted::Nonterminal(index) => (self.grammar.nonterminals[index].sort, Some(index)),
            Wanted::Words(term) => (literal_sort(term)?, None),
        };
        if found != wanted {
            return Some(format!("this literal has the sort {found}, expected is {wanted}"));
        }
        let literals = self.literals(index?);
        let name = &self.grammar.nonterminals[index?].name;
        (!literals.is_empty()).then(|| format!("the literals that `{name}` derives are {}", listed(&literals)))
    }

    /// A rule with the operator of an application, but another number of operands, where no rule has as many.
    fn about_count(&self, part: &Part) -> Option<String> {
        let Wanted::Nonterminal(index) = part.wanted else {
            return None;
        };
        let count = operands(part.node).len();
        let head = part.node.items().filter(|_| count > 0)?.first()?;
        let terms = self.terms(index).into_iter();
        let mut terms = terms.filter(|term| term.items().is_some_and(|items| items[0].same_words(head)));
        let first = terms.next()?;
        let fits = |term: &Tree| operands(term).len() == count;
        let own = counted(operands(first).len() as u64, "operand");
        let other = !fits(first) && !terms.any(fits);
        other.then(|| format!("the rule `{first}` has {own}, here are {count}"))
    }

    /// The literals that are whole rules of a non-terminal, or of those that are the whole of such a rule.
    fn literals(&self, nonterminal: usize) -> Vec<String> {
        let terms = self.terms(nonterminal).into_iter();
        let literals = terms.filter(|term| literal_value(term).is_some());
        literals.map(|term| format!("`{term}`")).collect()
    }

    /// The terms among the rules of a non-terminal, and of those that are the whole of such a rule.
    fn terms(&self, nonterminal: usize) -> Vec<&'a Tree> {
        let term = |rule: &'a Rule| match &rule.form {
            Form::Term(term) => Some(term),
            _ => None,
        };
        self.rules(nonterminal).into_iter().filter_map(term).collect()
    }
}

/// Texts in a row, of many only the first.
fn listed(texts: &[String]) -> String {
    match texts.get(..MOST_LISTED) {
        Some(first) if texts.len() > MOST_LISTED => format!("{} and {} more", first.join(", "), texts.len() - MOST_LISTED),
        _ => texts.join(", "),
    }
}

/// How many words and literals a tree has.
fn size(tree: &Tree) -> usize {
    pieces(tree).len()
}
