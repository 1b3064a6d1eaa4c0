//! A random sound script with grammars, and a response derived from them, as lists of words.

use super::random::Random;
use crate::eval::{operator_value, Value};
use crate::operators::{operator, Operator, Sort, SortRule, OPERATORS};
use crate::terms::{is_reserved, Name};
use crate::tree::Tree;
use crate::words::{Kind, Word};

/// Names to take new ones from; few, so that commands often share them.
const NAMES: [&str; 31] = [
    "x", "y", "z", "a", "b", "c", "A", "B", "C", "Start", "BV32", "f", "g", "h", "d0", "d1", "x.1",
    "@k", "~", "as", "fail", "bvsl", "bvnand", "<=", "Int", "a/b?!$", "*_-+&^%>", "bv", "bv1",
    "bv5", "bv05",
];
/// The most nodes of a term.
const MOST_NODES: usize = 256;

/// The words of a script and a response, and the points.
pub struct Draft {
    pub script: Vec<String>,
    pub response: Vec<String>,
    pub points: Vec<u64>,
}

/// A term as it is made: the words of its head, its operands, none for a leaf, its sort, and a literal's value where it has bits.
#[derive(Clone)]
struct Shape {
    head: Vec<String>,
    operands: Vec<Shape>,
    sort: Sort,
    bits: Option<u64>,
}

/// A rule as it is made.
enum Rule {
    Constant(Sort),
    Variable(Sort),
    Term(Shape),
}

/// A non-terminal with its rules, of which the ending one needs no other non-terminal, or one that ends without it, and the attributes of each
/// rule.
struct Group {
    name: String,
    sort: Sort,
    rules: Vec<Rule>,
    ending: usize,
    attributes: Vec<Vec<u32>>,
}

/// A synthesized function with its derived body, and one that is nearly derived where there is one.
struct Function {
    name: Name,
    arguments: Vec<Name>,
    body: Shape,
    slipped: Option<Shape>,
}

/// What is made so far.
struct Maker<'a> {
    random: &'a mut Random,
    derived: bool,
    /// Whether rules may have weights.
    weights: bool,
    sorts: Vec<Sort>,
    variables: Vec<Name>,
    definitions: Vec<Name>,
    functions: Vec<Function>,
    constraints: usize,
    assumptions: usize,
    rules_left: usize,
    script: Vec<String>,
}

impl Shape {
    /// A leaf of one word.
    fn leaf(word: &str, sort: Sort) -> Shape {
        Shape {
            head: vec![word.to_string()],
            operands: Vec::new(),
            sort,
            bits: None,
        }
    }

    /// A literal of bits.
    fn bits(random: &mut Random, width: u32, value: u64) -> Shape {
        Shape {
            head: spelt(random, width, value),
            operands: Vec::new(),
            sort: Sort::BitVec(width),
            bits: Some(value),
        }
    }

    /// The literal of a sort that a number stands for.
    fn literal_of(random: &mut Random, sort: Sort, value: u64) -> Shape {
        match sort {
            Sort::Bool => Shape::leaf(truth(value), sort),
            Sort::BitVec(width) => Shape::bits(random, width, value),
        }
    }

    /// A random literal of a sort.
    fn literal(random: &mut Random, sort: Sort) -> Shape {
        let value = value(random, sort);
        Shape::literal_of(random, sort, value)
    }

    /// The literal of bits that it is, spelt anew.
    fn respelt(&self, random: &mut Random) -> Option<Shape> {
        match (self.sort, self.bits) {
            (Sort::BitVec(width), Some(value)) => Some(Shape::bits(random, width, value)),
            _ => None,
        }
    }

    /// An application.
    fn apply(head: &str, operands: Vec<Shape>, sort: Sort) -> Shape {
        Shape {
            head: words(head),
            operands,
            sort,
            bits: None,
        }
    }

    /// An application that is a Bool.
    fn apply_bool(head: &str, operands: Vec<Shape>) -> Shape {
        Shape::apply(head, operands, Sort::Bool)
    }

    /// The words of the term.
    fn words(&self) -> Vec<String> {
        let operands = self.operands.iter().flat_map(Shape::words);
        if self.operands.is_empty() {
            return self.head.clone();
        }
        let inner = self.head.iter().cloned().chain(operands);
        list(inner.collect())
    }

    /// Whether it compares its operands, which may then have any sort.
    fn compares(&self) -> bool {
        matches!(self.head[0].as_str(), "=" | "distinct")
    }

    /// Whether it or a part of it compares its operands.
    fn holds_comparison(&self) -> bool {
        self.compares() || self.operands.iter().any(Shape::holds_comparison)
    }

    /// The number of its nodes.
    fn nodes(&self) -> usize {
        1 + self.operands.iter().map(Shape::nodes).sum::<usize>()
    }

    /// The term with each leaf replaced where a replacement is given.
    fn replaced(&self, replacement: &mut dyn FnMut(&Shape) -> Option<Shape>) -> Shape {
        if self.operands.is_empty() {
            return replacement(self).unwrap_or_else(|| self.clone());
        }
        let operands = self.operands.iter();
        Shape {
            head: self.head.clone(),
            operands: operands.map(|one| one.replaced(replacement)).collect(),
            sort: self.sort,
            bits: None,
        }
    }
}

/// The words of a text whose words stand apart.
pub fn words(text: &str) -> Vec<String> {
    text.split_whitespace().map(str::to_string).collect()
}

/// A list of these words.
pub fn list(inner: Vec<String>) -> Vec<String> {
    let mut list = words("(");
    list.extend(inner);
    list.extend(words(")"));
    list
}

/// A list of these parts.
fn joined(parts: impl IntoIterator<Item = Vec<String>>) -> Vec<String> {
    list(parts.into_iter().flatten().collect())
}

/// The words of a sort.
pub fn sort_words(sort: Sort) -> Vec<String> {
    match sort {
        Sort::Bool => words("Bool"),
        Sort::BitVec(width) => words(&format!("( _ BitVec {width} )")),
    }
}

/// The literal of Bool that a number stands for.
fn truth(value: u64) -> &'static str {
    match value {
        0 => "false",
        _ => "true",
    }
}

/// The words of a random literal of a sort.
pub fn literal(random: &mut Random, sort: Sort) -> Vec<String> {
    Shape::literal(random, sort).head
}

/// The words of a literal of bits in one of its spellings: `#x` in either case or both, `#b` or `(_ bvN n)`.
pub fn spelt(random: &mut Random, width: u32, value: u64) -> Vec<String> {
    let (hex, binary) = (width as usize / 4, width as usize);
    let way = match width % 4 {
        0 => random.below(5),
        _ => random.between(3, 4),
    };
    words(&match way {
        0 => format!("#x{value:0hex$x}"),
        1 => format!("#x{value:0hex$X}"),
        2 => format!("#x{value:0hex$x}")
            .replace('a', "A")
            .replace('f', "F"),
        3 => format!("#b{value:0binary$b}"),
        _ => format!("( _ bv{value} {width} )"),
    })
}

/// A random number of a sort, often at an end, signed or not, about 0 or about the width.
pub fn value(random: &mut Random, sort: Sort) -> u64 {
    let width = match sort {
        Sort::Bool => 1,
        Sort::BitVec(width) => width,
    };
    let most = u64::MAX >> (64 - width);
    let highest_bit = 1 << (width - 1);
    match random.below(10) {
        0 => 0,
        1 => 1,
        2 | 3 => most,
        4 => highest_bit,
        5 => highest_bit - 1,
        6 => (random.between(0, 2) as u64 + u64::from(width) - 1) & most,
        7 => random.number() & most & 15,
        8 => most - (random.number() & most & 15),
        _ => random.number() & most,
    }
}

/// The commands that begin a script, with weights or without.
pub fn first_commands(weights: bool) -> Vec<String> {
    words(match weights {
        true => "( set-logic BV ) ( set-feature :weights true )",
        false => "( set-logic BV )",
    })
}

/// The weights of a rule's attributes, mostly one or none; few different ones, so that sums are often equal.
pub fn attributes(random: &mut Random) -> Vec<u32> {
    let count = random.pick(&[0, 0, 1, 1, 1, 1, 1, 2, 3]);
    let weights = [0, 0, 1, 1, 1, 2, 2, 3, 5, 65_534, 65_535];
    (0..count).map(|_| random.pick(&weights)).collect()
}

/// The words of a rule with these attributes.
pub fn weighed(rule: Vec<String>, attributes: &[u32]) -> Vec<String> {
    if attributes.is_empty() {
        return rule;
    }
    let attribute = |weight: &u32| words(&format!(":weight {weight}"));
    let attributes = attributes.iter().flat_map(attribute).collect();
    list([words("!"), rule, attributes].concat())
}

/// A random sort.
fn sort(random: &mut Random) -> Sort {
    match random.below(4) {
        0 => Sort::Bool,
        1 => Sort::BitVec(random.between(1, 64) as u32),
        _ => Sort::BitVec(random.pick(&[1, 4, 8, 16, 32, 64])),
    }
}

/// A random draft, its bodies derived or with a term put in that need not be; one in twenty has many of everything.
pub fn draft(random: &mut Random, derived: bool) -> Draft {
    let many = random.percent(5);
    let weights = random.percent(40);
    let sorts = (0..3).map(|_| sort(random)).collect();
    let mut maker = Maker {
        random,
        derived,
        weights,
        sorts,
        variables: Vec::new(),
        definitions: Vec::new(),
        functions: Vec::new(),
        constraints: 0,
        assumptions: 0,
        rules_left: 0,
        script: first_commands(weights),
    };
    maker.commands(many);
    maker.script.extend(words("( check-synth )"));
    Draft {
        response: maker.response(),
        points: maker.points(),
        script: maker.script,
    }
}

/// A draft with a constraint or assumption of huge cost: each `define-fun` applies the last one several times.
pub fn tower(random: &mut Random) -> Draft {
    let mut script =
        words("( set-logic BV ) ( synth-fun f ( ) Bool ( ( A Bool ) ) ( ( A Bool ( true ) ) ) )");
    script.extend(words("( define-fun d0 ( ) Bool true )"));
    let levels = random.between(4, 31);
    for level in 1..=levels {
        let last = Shape::leaf(&format!("d{}", level - 1), Sort::Bool);
        let body = match random.percent(50) {
            true => Shape::apply_bool("and", vec![last; random.between(2, 7)]),
            false => {
                let add = |body, _| Shape::apply_bool("and", vec![last.clone(), body]);
                (0..random.between(1, 6)).fold(last.clone(), add)
            }
        };
        script.extend(words(&format!("( define-fun d{level} ( ) Bool")));
        script.extend(body.words());
        script.extend(words(")"));
    }
    for name in ["d1".to_string(), format!("d{levels}")] {
        let head = random.pick(&["constraint", "assume"]);
        script.extend(words(&format!("( {head} {name} )")));
    }
    script.extend(words("( check-synth )"));
    Draft {
        script,
        response: words("( ( define-fun f ( ) Bool true ) )"),
        points: Vec::new(),
    }
}

impl Maker<'_> {
    /// Commands in a random order, with at least one `synth-fun` and often without assumptions.
    fn commands(&mut self, many: bool) {
        let [variables, definitions, functions, constraints, mut assumptions] = match many {
            true => [16, 32, 8, 64, 32],
            false => [4, 5, 4, 6, 3],
        };
        if self.random.percent(40) {
            assumptions = 0;
        }
        let commands = self.random.between(1, if many { 100 } else { 16 });
        for _ in 0..commands {
            match self.random.below(7) {
                0 if self.variables.len() < variables => self.declare_var(),
                1 if self.definitions.len() < definitions => self.define_fun(),
                2 if self.functions.len() < functions => self.synth_fun(),
                3 | 4 if self.assumptions < assumptions => self.assume(),
                3.. if self.constraints < constraints => self.constraint(),
                _ => {}
            }
        }
        if self.functions.is_empty() {
            self.synth_fun();
            self.constraint();
        }
    }

    /// A name that is neither reserved nor in scope.
    fn fresh(&mut self, also_in_scope: &[String]) -> String {
        loop {
            let mut name = self.random.pick(&NAMES).to_string();
            if self.random.percent(40) {
                name += &self.random.below(30).to_string();
            }
            if self.random.percent(1) {
                name = format!("{name:_<64}");
            }
            let commands = self.variables.iter().chain(&self.definitions);
            let commands = commands.chain(self.functions.iter().map(|one| &one.name));
            let mut commands = commands.map(|one| &one.name);
            let taken = commands.any(|one| *one == name) || also_in_scope.contains(&name);
            if !taken && !is_reserved(&name) {
                return name;
            }
        }
    }

    /// A sort, mostly one of the script's own.
    fn sort(&mut self) -> Sort {
        match self.random.percent(90) {
            true => self.random.pick(&self.sorts),
            false => sort(self.random),
        }
    }

    /// Fresh names without operands: arguments or non-terminals.
    fn fresh_names(&mut self, count: usize, mut in_scope: Vec<String>) -> Vec<Name> {
        let mut names = Vec::new();
        for _ in 0..count {
            let name = self.fresh(&in_scope);
            in_scope.push(name.clone());
            names.push(Name {
                name,
                operands: Vec::new(),
                sort: self.sort(),
            });
        }
        names
    }

    /// How many arguments a function has.
    fn argument_count(&mut self) -> usize {
        match self.random.percent(5) {
            true => 8,
            false => self.random.below(4),
        }
    }

    /// `(declare-var x σ)`.
    fn declare_var(&mut self) {
        let variables = self.fresh_names(1, Vec::new());
        self.script.extend(words("( declare-var"));
        self.script.extend(words(&variables[0].name));
        self.script.extend(sort_words(variables[0].sort));
        self.script.extend(words(")"));
        self.variables.extend(variables);
    }

    /// `(define-fun g (arguments) σ body)`.
    fn define_fun(&mut self) {
        let name = self.fresh(&[]);
        let count = self.argument_count();
        let arguments = self.fresh_names(count, vec![name.clone()]);
        let sort = self.sort();
        let seen = [&arguments[..], &self.definitions].concat();
        let size = self.random.between(1, 8);
        let body = self.bounded_term(sort, &seen, size);
        self.script.extend(joined([
            words("define-fun"),
            header_words(&name, &arguments, sort),
            body.words(),
        ]));
        self.definitions.push(function_name(name, &arguments, sort));
    }

    /// `(synth-fun f (arguments) σ (predeclaration) (listing))`.
    fn synth_fun(&mut self) {
        let name = self.fresh(&[]);
        let count = self.argument_count();
        let arguments = self.fresh_names(count, vec![name.clone()]);
        let sort = match self.derived || self.random.percent(40) {
            true => self.sort(),
            false => Sort::Bool,
        };
        let mut in_scope = vec![name.clone()];
        in_scope.extend(arguments.iter().map(|one| one.name.clone()));
        let nonterminals = self.nonterminals(sort, in_scope);
        let mut groups = self.groups(&arguments, &nonterminals);
        self.weigh(&mut groups);
        let pair = |one: &Name| joined([words(&one.name), sort_words(one.sort)]);
        self.script.extend(joined([
            words("synth-fun"),
            header_words(&name, &arguments, sort),
            joined(nonterminals.iter().map(pair)),
            joined(groups.iter().map(group_words)),
        ]));
        let body = self.body(&groups, &arguments);
        let slipped = match self.derived {
            true => None,
            false => self.slipped(&groups, &arguments),
        };
        self.functions.push(Function {
            name: function_name(name, &arguments, sort),
            arguments,
            body,
            slipped,
        });
    }

    /// Gives rules that are terms attributes, where there may be some.
    fn weigh(&mut self, groups: &mut [Group]) {
        for group in groups {
            let weighed = |rule: &Rule| match rule {
                Rule::Term(_) if self.weights => attributes(self.random),
                _ => Vec::new(),
            };
            group.attributes = group.rules.iter().map(weighed).collect();
        }
    }

    /// The non-terminals of a grammar, of which the start has a sort and others often too.
    fn nonterminals(&mut self, sort: Sort, in_scope: Vec<String>) -> Vec<Name> {
        let count = match self.random.percent(3) {
            true => 16,
            false => self.random.between(1, 4),
        };
        let mut nonterminals = self.fresh_names(count, in_scope);
        nonterminals[0].sort = sort;
        let alike = if sort == Sort::Bool { 20 } else { 50 };
        for nonterminal in &mut nonterminals[1..] {
            if self.random.percent(alike) {
                nonterminal.sort = sort;
            }
        }
        nonterminals
    }

    /// The response: the `define-fun` of each function.
    fn response(&mut self) -> Vec<String> {
        let functions = std::mem::take(&mut self.functions);
        let mut parts = Vec::new();
        for Function {
            name,
            arguments,
            body,
            slipped,
        } in functions
        {
            let body = match slipped {
                _ if self.derived => body,
                Some(slipped) => slipped,
                None => self.estranged(&body, &[&arguments[..], &self.definitions].concat()),
            };
            let header = header_words(&name.name, &arguments, name.sort);
            parts.push(joined([words("define-fun"), header, body.words()]));
        }
        joined(parts)
    }

    /// The listing of a grammar; some non-terminals derive terms only through others, which all stand behind them or all before.
    fn groups(&mut self, arguments: &[Name], nonterminals: &[Name]) -> Vec<Group> {
        let seen = [arguments, nonterminals, nonterminals, &self.definitions].concat();
        let behind = self.random.percent(70);
        let mut groups = Vec::new();
        for (index, nonterminal) in nonterminals.iter().enumerate() {
            let others = match behind {
                true => &nonterminals[index + 1..],
                false => &nonterminals[..index],
            };
            if !others.is_empty() && self.random.percent(25) {
                groups.push(self.leaning_group(nonterminal, others));
                continue;
            }
            let count = self.random.between(1, 7);
            let ending = self.random.below(count);
            let mut rules = Vec::new();
            for index in 0..count {
                rules.push(match index == ending {
                    true => self.ending_rule(nonterminal.sort, arguments),
                    false => self.rule(nonterminal.sort, &seen, nonterminals),
                });
            }
            groups.push(Group {
                name: nonterminal.name.clone(),
                sort: nonterminal.sort,
                rules,
                ending,
                attributes: Vec::new(),
            });
        }
        groups
    }

    /// A non-terminal whose rules all need one, of which the ending one needs another of these and the rest itself, or are
    /// `(Variable σ)`.
    fn leaning_group(&mut self, own: &Name, others: &[Name]) -> Group {
        let count = self.random.pick(&[1, 1, 2, 3]);
        let ending = self.random.below(count);
        let mut rules = Vec::new();
        for index in 0..count {
            let inner = match index == ending {
                true => self.random.pick(others),
                false => own.clone(),
            };
            rules.push(match index != ending && self.random.percent(40) {
                true => Rule::Variable(own.sort),
                false => Rule::Term(self.leaning_term(own.sort, &inner)),
            });
        }
        Group {
            name: own.name.clone(),
            sort: own.sort,
            rules,
            ending,
            attributes: Vec::new(),
        }
    }

    /// A small term of a sort in which a non-terminal stands once.
    fn leaning_term(&mut self, sort: Sort, inner: &Name) -> Shape {
        let leaf = Shape::leaf(&inner.name, inner.sort);
        if inner.sort == sort && self.random.percent(50) {
            return leaf;
        }
        let equation = match inner.sort {
            Sort::Bool => Shape::apply_bool("not", vec![leaf]),
            bits => Shape::apply_bool("=", vec![leaf, Shape::literal(self.random, bits)]),
        };
        match sort {
            Sort::Bool => equation,
            bits => {
                let literals = [(); 2].map(|_| Shape::literal(self.random, bits));
                let [one, other] = literals;
                Shape::apply("ite", vec![equation, one, other], bits)
            }
        }
    }

    /// A rule that needs no non-terminal: a literal, an argument or `(Constant σ)`.
    fn ending_rule(&mut self, sort: Sort, arguments: &[Name]) -> Rule {
        match self.random.below(3) {
            0 => Rule::Constant(sort),
            _ => Rule::Term(self.leaf(sort, arguments)),
        }
    }

    /// Any rule of a sort: a chain, `(Constant σ)`, `(Variable σ)`, an operator of Core or an order on non-terminals, or a term.
    fn rule(&mut self, sort: Sort, seen: &[Name], nonterminals: &[Name]) -> Rule {
        match self.random.below(13) {
            0 | 1 => Rule::Constant(sort),
            2 | 3 => Rule::Variable(sort),
            4 | 5 => Rule::Term(self.leaf(sort, nonterminals)),
            6..=8 if sort == Sort::Bool => Rule::Term(self.core_term(nonterminals)),
            9 | 10 if sort == Sort::Bool => Rule::Term(self.order_term(nonterminals)),
            _ => {
                let size = self.random.between(2, 6);
                Rule::Term(self.bounded_term(sort, seen, size))
            }
        }
    }

    /// An operator of Core on two to four non-terminals, of bits where there are some, or on literals alone.
    fn core_term(&mut self, nonterminals: &[Name]) -> Shape {
        let compares = self.random.percent(65);
        let mut sorts: Vec<Sort> = nonterminals.iter().map(|one| one.sort).collect();
        sorts.sort_by_key(|&sort| sort == Sort::Bool);
        let (head, sort) = match compares {
            true if self.random.percent(70) => ("=", sorts[0]),
            true => ("=", self.random.pick(&sorts)),
            false => (self.random.pick(&["and", "or", "xor", "=>"]), Sort::Bool),
        };
        let literals = compares && self.random.percent(25);
        let count = self.random.pick(&[2, 2, 2, 2, 3, 4]);
        let operand = |_| match literals {
            true => Shape::literal(self.random, sort),
            false => self.leaf(sort, nonterminals),
        };
        Shape::apply_bool(head, (0..count).map(operand).collect())
    }

    /// The name of an order on words.
    fn order(&mut self) -> &'static str {
        let orders = OPERATORS.iter().filter(|one| one.rule == SortRule::Order);
        let orders: Vec<&Operator> = orders.collect();
        self.random.pick(&orders).name
    }

    /// An order on two non-terminals, or on literals where no non-terminal has bits.
    fn order_term(&mut self, nonterminals: &[Name]) -> Shape {
        let name = self.order();
        let mut sorts: Vec<Sort> = nonterminals.iter().map(|one| one.sort).collect();
        sorts.retain(|&sort| sort != Sort::Bool);
        let sort = match sorts.is_empty() {
            true => Sort::BitVec(8),
            false => self.random.pick(&sorts),
        };
        let operands = [sort; 2].map(|sort| self.leaf(sort, nonterminals));
        Shape::apply_bool(name, operands.to_vec())
    }

    /// A body derived at random from the start, small enough for the limits.
    fn body(&mut self, groups: &[Group], arguments: &[Name]) -> Shape {
        let mut depth = self.random.below(9);
        loop {
            self.rules_left = 100;
            let body = self.derived(groups, arguments, 0, depth);
            if body.nodes() <= 200 || depth == 0 {
                return body;
            }
            depth -= 1;
        }
    }

    /// A term that a non-terminal derives with at most so many rules one within another before an ending one; only
    /// ending ones when many rules are used.
    fn derived(
        &mut self,
        groups: &[Group],
        arguments: &[Name],
        index: usize,
        depth: usize,
    ) -> Shape {
        self.rules_left = self.rules_left.saturating_sub(1);
        let depth = depth.min(self.rules_left);
        let group = &groups[index];
        let mut chosen = group.ending;
        for turn in 0..4 {
            let open = turn == 0 || !needs_nonterminal(&group.rules[chosen], groups);
            if depth > 0 && open {
                chosen = self.random.below(group.rules.len());
            }
        }
        match &group.rules[chosen] {
            Rule::Constant(sort) => Shape::literal(self.random, *sort),
            Rule::Variable(sort) => {
                let fitting = arguments.iter().filter(|one| one.sort == *sort);
                let fitting: Vec<&Name> = fitting.collect();
                match fitting.is_empty() {
                    true => self.derived(groups, arguments, index, 0),
                    false => Shape::leaf(&self.random.pick(&fitting).name, *sort),
                }
            }
            Rule::Term(term) => self.expanded(term, groups, arguments, depth.saturating_sub(1)),
        }
    }

    /// A rule's term with each non-terminal replaced by a term that it derives, and each literal of bits spelt anew.
    fn expanded(
        &mut self,
        term: &Shape,
        groups: &[Group],
        arguments: &[Name],
        depth: usize,
    ) -> Shape {
        term.replaced(&mut |leaf| {
            let mut names = groups.iter().map(|one| one.name.as_str());
            match names.position(|name| leaf.head == [name]) {
                None => leaf.respelt(self.random),
                Some(inner) => Some(self.derived(groups, arguments, inner, depth)),
            }
        })
    }

    /// A body by a rule of the start that has an operator of Core, nearly derived: its operands have another sort than the rule's,
    /// are grouped otherwise, or are one more.
    fn slipped(&mut self, groups: &[Group], arguments: &[Name]) -> Option<Shape> {
        let rules = groups[0].rules.iter().filter_map(|rule| match rule {
            Rule::Term(term) if operator(&term.head[0]).is_some_and(|one| one.or_more) => {
                Some(term)
            }
            _ => None,
        });
        let rules: Vec<&Shape> = rules.collect();
        if rules.is_empty() {
            return None;
        }
        let rule = self.random.pick(&rules);
        if rule.compares() && self.random.percent(70) {
            let mut body = rule.clone();
            self.estrange_operands(&mut body.operands, arguments);
            return Some(body);
        }
        let mut body = self.expanded(rule, groups, arguments, 1);
        if body.operands.len() > 2 && self.random.percent(60) {
            let at = self.random.below(body.operands.len() - 1);
            let pair = body.operands.drain(at..at + 2).collect();
            let group = Shape::apply_bool(&body.head[0], pair);
            body.operands.insert(at, group);
        } else {
            body.operands.push(body.operands[0].clone());
        }
        Some(body)
    }

    /// The term with one part replaced by a random one of its sort, or with other operands where it compares them.
    fn estranged(&mut self, term: &Shape, seen: &[Name]) -> Shape {
        let mut changed = term.clone();
        let comparing =
            (0..term.operands.len()).filter(|&one| term.operands[one].holds_comparison());
        let comparing: Vec<usize> = comparing.collect();
        let chosen = match comparing.is_empty() || self.random.percent(30) {
            true => self.random.below(term.operands.len() + 1),
            false => self.random.pick(&comparing),
        };
        if term.compares() && self.random.percent(60) {
            self.estrange_operands(&mut changed.operands, seen);
        } else if chosen < term.operands.len() {
            changed.operands[chosen] = self.estranged(&term.operands[chosen], seen);
        } else {
            let size = self.random.between(1, 4);
            changed = self.term(term.sort, seen, size);
        }
        changed
    }

    /// Puts leaves of another sort in the places of all operands: literals, which keep the values of literals, or arguments.
    fn estrange_operands(&mut self, operands: &mut [Shape], seen: &[Name]) {
        let leaves = seen.iter().filter(|one| one.operands.is_empty());
        let mut sorts: Vec<Sort> = leaves.map(|one| one.sort).collect();
        sorts.extend([
            self.sort(),
            sort(self.random),
            Sort::BitVec(8),
            Sort::BitVec(4),
        ]);
        sorts.retain(|&one| one != operands[0].sort);
        let sort = self.random.pick(&sorts);
        let literals = self.random.percent(50);
        for operand in operands {
            *operand = match (sort, operand.bits) {
                (Sort::BitVec(width), Some(value)) => {
                    Shape::bits(self.random, width, value & sort.greatest())
                }
                _ if literals => Shape::literal(self.random, sort),
                _ => self.leaf(sort, seen),
            };
        }
    }

    /// `(constraint t)`.
    fn constraint(&mut self) {
        let term = self.condition();
        self.constraints += self.stated("constraint", &term);
    }

    /// `(assume t)`: a literal, a bound of a variable, or a term as of a constraint.
    fn assume(&mut self) {
        let term = match self.random.below(8) {
            0 => Shape::literal(self.random, Sort::Bool),
            1..=4 if !self.variables.is_empty() => self.bound(),
            _ => self.condition(),
        };
        self.assumptions += self.stated("assume", &term);
    }

    /// Puts in a command of a term unless it is too large, and says how many it has put in.
    fn stated(&mut self, command: &str, term: &Shape) -> usize {
        if term.nodes() > MOST_NODES - 1 {
            return 0;
        }
        self.script.extend(joined([words(command), term.words()]));
        1
    }

    /// A variable held against a literal, which comes out true at some points and false at others.
    fn bound(&mut self) -> Shape {
        let variable = self.random.pick(&self.variables);
        let literal = Shape::literal(self.random, variable.sort);
        let head = match variable.sort {
            Sort::Bool => self.random.pick(&["=", "distinct", "or", "=>"]),
            Sort::BitVec(_) => self.order(),
        };
        let variable = Shape::leaf(&variable.name, variable.sort);
        Shape::apply_bool(head, vec![variable, literal])
    }

    /// A term of a constraint or an assumption: by a function's own body, true by its form or by what operators mean, or any.
    fn condition(&mut self) -> Shape {
        let mut seen = [&self.variables[..], &self.variables, &self.definitions].concat();
        seen.extend(self.functions.iter().map(|one| one.name.clone()));
        match self.random.below(9) {
            0 => self.term(Sort::Bool, &seen, 8),
            1..=3 => self.bit(&seen),
            4..=6 if !self.functions.is_empty() => self.equation(&seen),
            7 => self.operator_values(),
            _ => self.tautology(&seen),
        }
    }

    /// `(= (f t ...) body)`, the body with its arguments replaced.
    fn equation(&mut self, seen: &[Name]) -> Shape {
        let index = self.random.below(self.functions.len());
        let name = self.functions[index].name.clone();
        let mut operands = Vec::new();
        for sort in &name.operands {
            let size = self.random.between(1, 3);
            operands.push(self.term(*sort, seen, size));
        }
        let function = &self.functions[index];
        let body = function.body.replaced(&mut |leaf| {
            let mut arguments = function.arguments.iter();
            let argument = arguments.position(|one| leaf.head == [one.name.as_str()])?;
            Some(operands[argument].clone())
        });
        let call = Shape::apply(&name.name, operands, name.sort);
        Shape::apply_bool("=", vec![call, body])
    }

    /// That a bit of a random term is 1.
    fn bit(&mut self, seen: &[Name]) -> Shape {
        let sort = self.sort();
        let size = self.random.between(2, 9);
        let term = self.term(sort, seen, size);
        let Sort::BitVec(width) = sort else {
            return term;
        };
        let at = self.random.below(width as usize);
        let bit = Sort::BitVec(1);
        let part = Shape::apply(&format!("( _ extract {at} {at} )"), vec![term], bit);
        Shape::apply_bool("=", vec![part, Shape::bits(self.random, 1, 1)])
    }

    /// That some operators on literals have their values, in all bits; of one of them at times the contrary.
    fn operator_values(&mut self) -> Shape {
        let count = self.random.between(2, 12);
        let equations = (0..count).map(|_| self.operator_equation());
        let mut equations: Vec<Shape> = equations.collect();
        if self.random.percent(40) {
            equations[self.random.below(count)].head = words("distinct");
        }
        Shape::apply_bool("and", equations)
    }

    /// `(= (o a b) c)` for an operator on two words of one width, c being its value; a and b are at times the least number and -1,
    /// whose quotient is no number of that width.
    fn operator_equation(&mut self) -> Shape {
        let rows = OPERATORS.iter().filter(|row| {
            row.operands == 2 && matches!(row.rule, SortRule::Bits | SortRule::Order)
        });
        let rows: Vec<&Operator> = rows.collect();
        let name = self.random.pick(&rows).name;
        let width = match self.random.percent(20) {
            true => self.random.between(1, 64) as u32,
            false => self.random.pick(&[1, 2, 3, 4, 8, 63, 64, 64]),
        };
        let sort = Sort::BitVec(width);
        let operands = match self.random.percent(10) {
            true => [1 << (width - 1), sort.greatest()],
            false => [value(self.random, sort), value(self.random, sort)],
        };
        let result = operator_value(&symbol(name), &operands.map(|one| Value::new(sort, one)));
        let operands = operands.map(|one| Shape::literal_of(self.random, sort, one));
        let term = Shape::apply(name, operands.to_vec(), result.sort());
        let literal = Shape::literal_of(self.random, result.sort(), result.number());
        Shape::apply_bool("=", vec![term, literal])
    }

    /// A constraint that is true by its form.
    fn tautology(&mut self, seen: &[Name]) -> Shape {
        let sort = self.sort();
        let any = self.term(sort, seen, 6);
        let one = self.term(Sort::Bool, seen, 6);
        let other = self.term(Sort::Bool, seen, 3);
        let between = self.term(sort, seen, 3);
        let negated = |term| Shape::apply_bool("not", vec![term]);
        match self.random.below(7) {
            0 => Shape::apply_bool("=", vec![any; self.random.between(2, 5)]),
            1 => negated(Shape::apply_bool("distinct", vec![any.clone(), any])),
            2 => negated(Shape::apply_bool(
                "distinct",
                vec![any.clone(), between, any],
            )),
            3 => Shape::apply_bool("or", vec![one.clone(), other, negated(one)]),
            4 => Shape::apply_bool("=>", vec![one.clone(), one]),
            5 => Shape::apply_bool("=>", vec![one.clone(), other, one]),
            _ => negated(Shape::apply_bool("xor", vec![one.clone(), one])),
        }
    }

    /// A random term of a sort with about so many nodes, and no more than a term may have.
    fn bounded_term(&mut self, sort: Sort, seen: &[Name], size: usize) -> Shape {
        loop {
            let term = self.term(sort, seen, size);
            if term.nodes() <= MOST_NODES {
                return term;
            }
        }
    }

    /// A random term of a sort with about so many nodes, more where an operator has many operands.
    fn term(&mut self, sort: Sort, seen: &[Name], size: usize) -> Shape {
        if size <= 1 {
            return self.leaf(sort, seen);
        }
        let functions = seen.iter();
        let functions = functions.filter(|one| one.sort == sort && !one.operands.is_empty());
        let functions: Vec<&Name> = functions.collect();
        if !functions.is_empty() && self.random.percent(30) {
            let name = self.random.pick(&functions).clone();
            let operands = self.operand_terms(&name.operands, seen, size);
            return Shape::apply(&name.name, operands, sort);
        }
        let (head, operands) = self.operator(sort);
        let mut operands = self.operand_terms(&operands, seen, size);
        if operator(&head).is_some_and(|one| one.or_more) {
            self.repeat_some(&mut operands);
        }
        Shape::apply(&head, operands, sort)
    }

    /// Where there are more than two operands, often repeats earlier ones, or makes all but one alike.
    fn repeat_some(&mut self, operands: &mut [Shape]) {
        let (way, last) = (self.random.below(3), operands.len() - 1);
        let other = match self.random.percent(50) {
            true => last,
            false => self.random.below(last),
        };
        for index in 2..operands.len() {
            let earlier = self.random.below(index);
            match way {
                0 if self.random.percent(50) => operands[index] = operands[earlier].clone(),
                1 if index != other => operands[index] = operands[0].clone(),
                _ => {}
            }
        }
        if way == 1 && other > 1 {
            operands[1] = operands[0].clone();
        }
    }

    /// Random terms of these sorts for an application with about so many nodes.
    fn operand_terms(&mut self, sorts: &[Sort], seen: &[Name], size: usize) -> Vec<Shape> {
        let share = (size - 1).div_ceil(sorts.len());
        let operands = sorts.iter().map(|&sort| self.term(sort, seen, share));
        operands.collect()
    }

    /// A literal or a seen name without operands.
    fn leaf(&mut self, sort: Sort, seen: &[Name]) -> Shape {
        let names = seen.iter();
        let names = names.filter(|one| one.sort == sort && one.operands.is_empty());
        let names: Vec<&Name> = names.collect();
        if names.is_empty() || self.random.percent(20) {
            return Shape::literal(self.random, sort);
        }
        Shape::leaf(&self.random.pick(&names).name, sort)
    }

    /// How many operands an operator gets: mostly few where it may have more than two, at times nearly as many as a term can hold.
    fn operand_count(&mut self, operator: &Operator) -> usize {
        match self.random.below(100) {
            _ if !operator.or_more => operator.operands,
            0..=54 => operator.operands,
            55..=79 => self.random.between(3, 5),
            80..=97 => self.random.between(6, 12),
            _ => self.random.between(11, MOST_NODES - 1),
        }
    }

    /// An operator that gives a sort, as its words and the sorts of its operands; as there are many orders, each comes half as often.
    fn operator(&mut self, sort: Sort) -> (String, Vec<Sort>) {
        loop {
            let operator = &OPERATORS[self.random.below(OPERATORS.len())];
            if operator.rule == SortRule::Order && self.random.percent(50) {
                continue;
            }
            let count = self.operand_count(operator);
            let alike = vec![sort; count];
            let other = self.sort();
            let operands = match (operator.rule, sort, other) {
                (SortRule::Bools, Sort::Bool, _) => alike,
                (SortRule::Alike, Sort::Bool, _) => vec![other; count],
                (SortRule::Order, Sort::Bool, Sort::BitVec(_)) => vec![other, other],
                (SortRule::Choice, _, _) => vec![Sort::Bool, sort, sort],
                (SortRule::Bits, Sort::BitVec(_), _) => alike,
                (SortRule::Joined, Sort::BitVec(width), _) if width > 1 => {
                    let high = self.random.between(1, width as usize - 1) as u32;
                    vec![Sort::BitVec(high), Sort::BitVec(width - high)]
                }
                (SortRule::Part, Sort::BitVec(width), Sort::BitVec(whole)) if whole >= width => {
                    let low = self.random.below((whole - width) as usize + 1) as u32;
                    let high = low + width - 1;
                    return (format!("( _ extract {high} {low} )"), vec![other]);
                }
                _ => continue,
            };
            return (operator.name.to_string(), operands);
        }
    }

    /// Some whole points, often none where there are no variables.
    fn points(&mut self) -> Vec<u64> {
        let count = self.random.below(6);
        let mut points = Vec::new();
        for _ in 0..count {
            for variable in &self.variables {
                points.push(value(self.random, variable.sort));
            }
        }
        points
    }
}

/// A symbol as a tree.
fn symbol(text: &str) -> Tree {
    Tree::Leaf(Word {
        start: 0,
        text: text.to_string(),
        kind: Kind::Symbol,
    })
}

/// Whether a rule has a non-terminal in it.
fn needs_nonterminal(rule: &Rule, groups: &[Group]) -> bool {
    let is_nonterminal = |word: &String| groups.iter().any(|group| group.name == *word);
    match rule {
        Rule::Term(term) => term.words().iter().any(is_nonterminal),
        Rule::Constant(_) | Rule::Variable(_) => false,
    }
}

/// The words of name, arguments and sort.
fn header_words(name: &str, arguments: &[Name], sort: Sort) -> Vec<String> {
    let pair = |one: &Name| joined([words(&one.name), sort_words(one.sort)]);
    let parts = [
        words(name),
        joined(arguments.iter().map(pair)),
        sort_words(sort),
    ];
    parts.concat()
}

/// The words of a listed non-terminal.
fn group_words(group: &Group) -> Vec<String> {
    let rule = |(rule, attributes): (&Rule, &Vec<u32>)| match rule {
        Rule::Constant(sort) => joined([words("Constant"), sort_words(*sort)]),
        Rule::Variable(sort) => joined([words("Variable"), sort_words(*sort)]),
        Rule::Term(term) => weighed(term.words(), attributes),
    };
    let rules = group.rules.iter().zip(&group.attributes);
    joined([
        words(&group.name),
        sort_words(group.sort),
        joined(rules.map(rule)),
    ])
}

/// A function as a name that terms see.
fn function_name(name: String, arguments: &[Name], sort: Sort) -> Name {
    Name {
        name,
        operands: arguments.iter().map(|one| one.sort).collect(),
        sort,
    }
}
