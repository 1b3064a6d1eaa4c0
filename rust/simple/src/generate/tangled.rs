//! A draft whose bodies have many derivations: chains and rings of non-terminals, and rules that are equal or derive the same terms, mostly with weights, of which few
//! differ.

use super::draft::{attributes, first_commands, list, sort_words, weighed, words, Draft};
use super::random::Random;
use crate::operators::Sort;

/// The most nodes of a body.
const MOST_NODES: usize = 60;

/// The form of a rule or a term: a word, or a head and its operands.
#[derive(Clone)]
enum Form {
    Leaf(String),
    Nonterminal(usize),
    Constant,
    Variable,
    Apply(&'static str, Vec<Form>),
}

/// A non-terminal's rules, of which the last one ends: a leaf, or a chain to a later non-terminal.
type Rules = Vec<Form>;

/// What the grammar and its body are made of.
struct Maker<'a> {
    random: &'a mut Random,
    sort: Sort,
    /// The operators of one and of two operands that a rule may have.
    heads: [&'static str; 2],
    leaves: [&'static str; 3],
    nonterminals: usize,
    /// Whether rules may have weights.
    weights: bool,
}

/// A draft of one or two functions with such grammars, and bodies derived from them.
pub fn tangled(random: &mut Random) -> Draft {
    let weights = random.percent(75);
    let mut script = first_commands(weights);
    let mut response = Vec::new();
    for name in ["f", "g"].into_iter().take(random.between(1, 2)) {
        let nonterminals = random.pick(&[1, 2, 3, 3, 4, 6, 16]);
        let mut maker = Maker::new(random, nonterminals, weights);
        let rules: Vec<Rules> = (0..nonterminals).map(|index| maker.rules(index)).collect();
        let rules = maker.tangle(rules);
        let body = maker.body(&rules);
        let header = [words(name), maker.arguments(), sort_words(maker.sort)].concat();
        let grammar = maker.grammar(&rules);
        script.extend(list([words("synth-fun"), header.clone(), grammar].concat()));
        let body = maker.words(&body);
        response.extend(list([words("define-fun"), header, body].concat()));
    }
    script.extend(words("( check-synth )"));
    Draft {
        script,
        response: list(response),
        points: Vec::new(),
    }
}

impl Maker<'_> {
    /// A maker of terms of Bool or of bits.
    fn new(random: &mut Random, nonterminals: usize, weights: bool) -> Maker<'_> {
        let is_bool = random.percent(50);
        let (sort, heads, leaves) = match is_bool {
            true => (Sort::Bool, ["not", "and"], ["x", "y", "true"]),
            false => (Sort::BitVec(8), ["bvnot", "bvand"], ["x", "y", "#x0f"]),
        };
        Maker {
            random,
            sort,
            heads,
            leaves,
            nonterminals,
            weights,
        }
    }

    /// The arguments x and y.
    fn arguments(&self) -> Vec<String> {
        let pair = |name| list([words(name), sort_words(self.sort)].concat());
        list([pair("x"), pair("y")].concat())
    }

    /// The name of a non-terminal.
    fn name(&self, index: usize) -> String {
        format!("N{index}")
    }

    /// The rules of a non-terminal.
    fn rules(&mut self, index: usize) -> Rules {
        let count = self.random.below(5);
        let mut rules: Rules = (0..count).map(|_| self.rule()).collect();
        let later = index + 1 < self.nonterminals;
        rules.push(match later && self.random.percent(50) {
            true => Form::Nonterminal(self.random.between(index + 1, self.nonterminals - 1)),
            false => self.leaf(),
        });
        rules
    }

    /// Any rule: often a chain, which may close a ring.
    fn rule(&mut self) -> Form {
        match self.random.below(12) {
            0..=3 => self.nonterminal(),
            4 => Form::Constant,
            5 => Form::Variable,
            6 => self.leaf(),
            _ => self.term(2),
        }
    }

    /// A leaf without non-terminals.
    fn leaf(&mut self) -> Form {
        Form::Leaf(self.random.pick(&self.leaves).to_string())
    }

    /// A non-terminal.
    fn nonterminal(&mut self) -> Form {
        Form::Nonterminal(self.random.below(self.nonterminals))
    }

    /// A term over non-terminals and at times leaves, with at most so many operators one within another.
    fn term(&mut self, depth: usize) -> Form {
        if depth == 0 || depth < 2 && self.random.percent(60) {
            return match self.random.percent(75) {
                true => self.nonterminal(),
                false => self.leaf(),
            };
        }
        let count = self.random.between(1, 2);
        let operands = (0..count).map(|_| self.term(depth - 1)).collect();
        Form::Apply(self.heads[count - 1], operands)
    }

    /// Copies some rules to other places of their own or of another non-terminal, so that they are equal.
    fn tangle(&mut self, mut rules: Vec<Rules>) -> Vec<Rules> {
        for _ in 0..self.random.below(6) {
            let from = self.random.below(rules.len());
            let to = self.random.below(rules.len());
            let copy = self.random.pick(&rules[from]);
            let at = self.random.below(rules[to].len());
            rules[to].insert(at, copy);
        }
        rules
    }

    /// A body derived from the start, small enough.
    fn body(&mut self, rules: &[Rules]) -> Form {
        let mut depth = self.random.between(2, 10);
        loop {
            let body = self.derived(rules, 0, depth);
            if self.words(&body).len() <= MOST_NODES {
                return body;
            }
            depth -= 1;
        }
    }

    /// A term that a non-terminal derives; at depth 0 by the last rule.
    fn derived(&mut self, rules: &[Rules], index: usize, depth: usize) -> Form {
        let own = &rules[index];
        let last = &own[own.len() - 1];
        let rule = match depth {
            0 => last.clone(),
            _ => self.random.pick(own),
        };
        self.expanded(rules, &rule, depth.saturating_sub(1))
    }

    /// A rule with each non-terminal replaced by a term that it derives.
    fn expanded(&mut self, rules: &[Rules], form: &Form, depth: usize) -> Form {
        match form {
            Form::Leaf(word) => Form::Leaf(word.clone()),
            Form::Nonterminal(index) => self.derived(rules, *index, depth),
            Form::Constant => Form::Leaf(self.leaves[2].to_string()),
            Form::Variable => Form::Leaf(self.leaves[self.random.below(2)].to_string()),
            Form::Apply(head, operands) => {
                let operands = operands.iter();
                let operands = operands.map(|one| self.expanded(rules, one, depth));
                Form::Apply(head, operands.collect())
            }
        }
    }

    /// The words of a form.
    fn words(&self, form: &Form) -> Vec<String> {
        match form {
            Form::Leaf(word) => words(word),
            Form::Nonterminal(index) => words(&self.name(*index)),
            Form::Constant => list([words("Constant"), sort_words(self.sort)].concat()),
            Form::Variable => list([words("Variable"), sort_words(self.sort)].concat()),
            Form::Apply(head, operands) => {
                let operands = operands.iter().flat_map(|one| self.words(one));
                list([words(head), operands.collect()].concat())
            }
        }
    }

    /// The words of a rule, with its weights where it may have some.
    fn rule_words(&mut self, rule: &Form) -> Vec<String> {
        let attributes = match rule {
            Form::Constant | Form::Variable => Vec::new(),
            _ if !self.weights => Vec::new(),
            _ => attributes(self.random),
        };
        weighed(self.words(rule), &attributes)
    }

    /// The words of the predeclaration and the listing.
    fn grammar(&mut self, rules: &[Rules]) -> Vec<String> {
        let (mut predeclared, mut groups) = (Vec::new(), Vec::new());
        for (index, rules) in rules.iter().enumerate() {
            let name = [words(&self.name(index)), sort_words(self.sort)].concat();
            let rules = rules.iter().flat_map(|rule| self.rule_words(rule));
            let rules = list(rules.collect());
            predeclared.extend(list(name.clone()));
            groups.extend(list([name, rules].concat()));
        }
        [list(predeclared), list(groups)].concat()
    }
}
