//! "Derivation": which non-terminals derive a node, and the derivation that is shown.
//!
//! The least derivation is found in rounds: at each node every rule is tried with the derivations that are known, which may be of any length, and takes the place
//! of one that comes behind it, until a round finds none.

use crate::eval::literal_value;
use crate::operators::Sort;
use crate::terms::{literal_sort, operands};
use crate::tree::Tree;
use std::cmp::Ordering;
use std::collections::HashMap;
use std::fmt;

/// An argument, a variable or a non-terminal with its sort: "Each declared name's record must hold the place of its declaration".
#[derive(Clone, Debug, PartialEq, Eq)]
pub struct Sorted {
    pub name: String,
    pub place: usize,
    pub sort: Sort,
}

/// "A rule is `(Constant σ)`, `(Variable σ)` or a binder-free term".
#[derive(Clone, Debug)]
pub enum Form {
    Constant(Sort),
    Variable(Sort),
    Term(Tree),
}

impl fmt::Display for Form {
    /// The rule on one line.
    fn fmt(&self, to: &mut fmt::Formatter) -> fmt::Result {
        match self {
            Form::Constant(sort) => write!(to, "(Constant {sort})"),
            Form::Variable(sort) => write!(to, "(Variable {sort})"),
            Form::Term(term) => write!(to, "{term}"),
        }
    }
}

/// A rule, the index of its non-terminal and its weight.
#[derive(Clone, Debug)]
pub struct Rule {
    pub nonterminal: usize,
    pub form: Form,
    pub weight: u64,
}

/// The non-terminals, the first being the start, and the rules "numbered from 0 through the whole grammar".
#[derive(Clone, Debug)]
pub struct Grammar {
    pub nonterminals: Vec<Sorted>,
    pub rules: Vec<Rule>,
}

impl Grammar {
    /// The index of the non-terminal that a tree is.
    pub fn nonterminal(&self, tree: &Tree) -> Option<usize> {
        let name = tree.symbol()?;
        self.nonterminals.iter().position(|one| one.name == name)
    }

    /// The non-terminals that stand in a rule's term, each as often as it does.
    pub fn needed(&self, term: &Tree) -> Vec<usize> {
        let own = self.nonterminal(term).into_iter();
        let inner = operands(term).iter();
        own.chain(inner.flat_map(|operand| self.needed(operand)))
            .collect()
    }

    /// For each non-terminal whether it derives a term at all: a rule leads to one if all its non-terminals do, until nothing more
    /// is added.
    pub fn fruitful(&self, arguments: &[Sorted]) -> Vec<bool> {
        let mut fruitful = vec![false; self.nonterminals.len()];
        loop {
            let leads = |rule: &&Rule| self.leads_to_term(&rule.form, arguments, &fruitful);
            let rules = self.rules.iter().filter(leads);
            let found: Vec<usize> = rules.map(|rule| rule.nonterminal).collect();
            if found.iter().all(|&one| fruitful[one]) {
                return fruitful;
            }
            for one in found {
                fruitful[one] = true;
            }
        }
    }

    /// Whether a rule leads to a term where these non-terminals do: "`(Variable σ)` with no argument of that sort counts for
    /// nothing".
    pub fn leads_to_term(&self, form: &Form, arguments: &[Sorted], fruitful: &[bool]) -> bool {
        match form {
            Form::Constant(_) => true,
            Form::Variable(sort) => arguments.iter().any(|one| one.sort == *sort),
            Form::Term(term) => self.needed(term).into_iter().all(|one| fruitful[one]),
        }
    }
}

/// A derivation: its rule numbers, "leftmost first", and their summed weight.
#[derive(Clone, Debug, Default, PartialEq, Eq)]
pub struct Derivation {
    pub weight: u64,
    pub rules: Vec<u16>,
}

/// A rule that fits a node, and its non-terminals from left to right, each with the part of the node at its place.
struct Fitting<'t> {
    number: usize,
    places: Vec<(usize, &'t Tree)>,
}

/// The derivation that begins with a rule and goes on with what is known of its places.
struct Candidate<'s> {
    number: u16,
    weight: u64,
    parts: Vec<&'s Derivation>,
}

impl Candidate<'_> {
    /// Its rule numbers.
    fn rules(&self) -> impl Iterator<Item = u16> + '_ {
        let parts = self.parts.iter().flat_map(|part| &part.rules);
        [self.number].into_iter().chain(parts.copied())
    }

    /// Its total weight and how many rules it has.
    fn price(&self) -> (u64, usize) {
        let weight: u64 = self.parts.iter().map(|part| part.weight).sum();
        let count: usize = self.parts.iter().map(|part| part.rules.len()).sum();
        (self.weight + weight, 1 + count)
    }

    /// "least total weight among all of any length, then with fewest rules, then with the least rule numbers at the first difference".
    fn comes_before(&self, known: &Derivation) -> bool {
        let price = (known.weight, known.rules.len());
        match self.price().cmp(&price) {
            Ordering::Less => true,
            Ordering::Equal => self.rules().lt(known.rules.iter().copied()),
            Ordering::Greater => false,
        }
    }
}

/// For each node of a body, by its place: for each non-terminal its least derivation of the node, if it has one.
pub struct Search<'a> {
    grammar: &'a Grammar,
    arguments: &'a [Sorted],
    least: HashMap<usize, Vec<Option<Derivation>>>,
}

/// The least derivation of the body from the start; none if there is no derivation.
pub fn derivation(grammar: &Grammar, arguments: &[Sorted], body: &Tree) -> Option<Derivation> {
    let mut search = Search::new(grammar, arguments, body);
    search.least.remove(&body.start())?.swap_remove(0)
}

impl<'a> Search<'a> {
    /// Which non-terminals derive each node of a body, and how.
    pub fn new(grammar: &'a Grammar, arguments: &'a [Sorted], body: &Tree) -> Search<'a> {
        let mut search = Search {
            grammar,
            arguments,
            least: HashMap::new(),
        };
        search.visit(body);
        search
    }

    /// The least derivation of a node of the body from a non-terminal.
    fn known(&self, nonterminal: usize, node: &Tree) -> Option<&Derivation> {
        self.least[&node.start()][nonterminal].as_ref()
    }

    /// Whether a non-terminal derives a node of the body.
    pub fn has(&self, nonterminal: usize, node: &Tree) -> bool {
        self.known(nonterminal, node).is_some()
    }

    /// "A non-terminal derives a term if one of its rules does": the rules that fit the node, in rounds until none finds more.
    fn visit(&mut self, node: &Tree) {
        for operand in operands(node) {
            self.visit(operand);
        }
        let none = vec![None; self.grammar.nonterminals.len()];
        self.least.insert(node.start(), none);
        let rules = self.grammar.rules.iter().enumerate();
        let fitting = rules.filter_map(|(number, rule)| {
            let places = self.places(&rule.form, node)?;
            Some(Fitting { number, places })
        });
        let fitting: Vec<Fitting> = fitting.collect();
        while self.round(&fitting, node) {}
    }

    /// Tries each rule that fits a node; whether one of them finds a derivation that comes before the one that was known.
    fn round(&mut self, fitting: &[Fitting], node: &Tree) -> bool {
        let mut found = false;
        for one in fitting {
            let nonterminal = self.grammar.rules[one.number].nonterminal;
            if let Some(derivation) = self.better(one, self.known(nonterminal, node)) {
                let row = self.least.get_mut(&node.start()).expect("a row");
                row[nonterminal] = Some(derivation);
                found = true;
            }
        }
        found
    }

    /// The derivation that begins with a rule, where there is one and it comes before the one that is known.
    fn better(&self, fitting: &Fitting, known: Option<&Derivation>) -> Option<Derivation> {
        let places = fitting.places.iter();
        let parts = places.map(|&(nonterminal, part)| self.known(nonterminal, part));
        let candidate = Candidate {
            number: fitting.number as u16,
            weight: self.grammar.rules[fitting.number].weight,
            parts: parts.collect::<Option<_>>()?,
        };
        let first = known.map_or(true, |known| candidate.comes_before(known));
        first.then(|| Derivation {
            weight: candidate.price().0,
            rules: candidate.rules().collect(),
        })
    }

    /// The non-terminal that is the whole of a rule.
    pub fn chain(&self, rule: &Rule) -> Option<usize> {
        match &rule.form {
            Form::Term(term) => self.grammar.nonterminal(term),
            _ => None,
        }
    }

    /// The non-terminals of a rule that fits a node, with their places; "`(Constant σ)` derives any literal of sort σ; `(Variable σ)`
    /// any argument of that function of sort σ".
    fn places<'t>(&self, form: &Form, node: &'t Tree) -> Option<Vec<(usize, &'t Tree)>> {
        let fits = match form {
            Form::Constant(sort) => literal_sort(node) == Some(*sort),
            Form::Variable(sort) => self.arguments.iter().any(|argument| {
                argument.sort == *sort && node.symbol() == Some(argument.name.as_str())
            }),
            Form::Term(term) => return self.term_places(term, node),
        };
        fits.then(Vec::new)
    }

    /// "the term equals the rule with each non-terminal replaced, place by place, by a term it derives"; "A literal is its value
    /// and width".
    fn term_places<'t>(&self, rule: &Tree, node: &'t Tree) -> Option<Vec<(usize, &'t Tree)>> {
        if let Some(nonterminal) = self.grammar.nonterminal(rule) {
            return Some(vec![(nonterminal, node)]);
        }
        if let Some(value) = literal_value(rule) {
            return (literal_value(node) == Some(value)).then(Vec::new);
        }
        match (rule.items(), node.items()) {
            (Some([rule_head, rule_operands @ ..]), Some([node_head, node_operands @ ..])) => {
                let alike =
                    rule_head.same_words(node_head) && rule_operands.len() == node_operands.len();
                let pairs = rule_operands.iter().zip(node_operands);
                let places = pairs.map(|(rule, node)| self.term_places(rule, node));
                let places = alike.then(|| places.collect::<Option<Vec<_>>>())??;
                Some(places.concat())
            }
            _ => rule.same_words(node).then(Vec::new),
        }
    }
}
