//! The assumptions and constraints with the bodies put in for the functions: one list of nodes, each after its operands, so that one pass gives all values at a
//! point. The values are the simple checker's.

use crate::trials::head;
use simple::eval::{literal_value, operator_value, Value};
use simple::grammar::Sorted;
use simple::operands;
use simple::operators::{operator, Sort};
use simple::script::Script;
use simple::tree::Tree;
use std::collections::{BTreeMap, HashMap};
use std::sync::OnceLock;

/// A script whose assumptions and constraints have more nodes, functions put in, has no program.
const MOST_NODES: usize = 20_000;

/// A variable by its index, a literal, or an operator with the indices of its operands.
#[derive(Debug)]
pub enum Node<'a> {
    Variable(usize),
    Literal(Value),
    Apply {
        head: &'a Tree,
        operands: Vec<usize>,
    },
}

/// A literal or an application of an operator in a text, and all nodes that stand for it.
#[derive(Debug)]
pub struct Place<'a> {
    pub term: &'a Tree,
    pub in_response: bool,
    pub nodes: Vec<usize>,
}

/// The nodes of all assumptions and constraints.
#[derive(Debug, Default)]
pub struct Program<'a> {
    pub variables: Vec<Sort>,
    pub nodes: Vec<Node<'a>>,
    /// The node of each assumption.
    pub assumed: Vec<usize>,
    /// The node of each constraint, behind the assumptions if there are any: it is false where these are true and the constraint is false.
    pub roots: Vec<usize>,
    /// Where the nodes come from, those of the response first.
    pub places: Vec<Place<'a>>,
}

/// A function that is put in.
struct Function<'a> {
    arguments: &'a [Sorted],
    body: &'a Tree,
    in_response: bool,
}

/// A program while it is made.
struct Maker<'a> {
    functions: HashMap<&'a str, Function<'a>>,
    program: Program<'a>,
    /// The node of each call that was already put in.
    called: HashMap<(&'a str, Vec<usize>), usize>,
    /// The places of the response, then those of the script, by offset.
    places: BTreeMap<(bool, usize), Place<'a>>,
}

/// Nodes by the names that a term sees.
type Names<'a> = HashMap<&'a str, usize>;

/// The program of a script and its bodies; none where it would be too long.
pub fn program<'a>(script: &'a Script, bodies: &'a [Tree]) -> Option<Program<'a>> {
    let mut maker = Maker {
        functions: functions(script, bodies),
        program: Program::default(),
        called: HashMap::new(),
        places: BTreeMap::new(),
    };
    let mut names = Names::new();
    for (index, variable) in script.variables.iter().enumerate() {
        maker.program.variables.push(variable.sort);
        names.insert(&variable.name, maker.push(Node::Variable(index))?);
    }
    for assumption in &script.assumptions {
        let node = maker.node(&assumption.term, &names, false)?;
        maker.program.assumed.push(node);
    }
    for constraint in &script.constraints {
        let node = maker.node(&constraint.term, &names, false)?;
        let root = maker.behind_assumptions(node)?;
        maker.program.roots.push(root);
    }
    let mut program = maker.program;
    program.places = maker.places.into_values().collect();
    Some(program)
}

/// The word `=>`, as the head of an application.
fn implies() -> &'static Tree {
    static HEAD: OnceLock<Tree> = OnceLock::new();
    HEAD.get_or_init(|| head("=>"))
}

/// The `define-fun`s, and the synthesized functions with their bodies, by name.
fn functions<'a>(script: &'a Script, bodies: &'a [Tree]) -> HashMap<&'a str, Function<'a>> {
    let defined = script.definitions.iter().map(|one| {
        let function = Function {
            arguments: &one.arguments,
            body: &one.body,
            in_response: false,
        };
        (one.name.as_str(), function)
    });
    let synthesized = script.synthesized.iter().zip(bodies).map(|(one, body)| {
        let function = Function {
            arguments: &one.arguments,
            body,
            in_response: true,
        };
        (one.name.as_str(), function)
    });
    defined.chain(synthesized).collect()
}

impl<'a> Maker<'a> {
    /// Adds a node, where there is room.
    fn push(&mut self, node: Node<'a>) -> Option<usize> {
        let index = self.program.nodes.len();
        self.program.nodes.push(node);
        (index < MOST_NODES).then_some(index)
    }

    /// A node that is true where an assumption is false, and has the value of another elsewhere.
    fn behind_assumptions(&mut self, node: usize) -> Option<usize> {
        let mut operands = self.program.assumed.clone();
        if operands.is_empty() {
            return Some(node);
        }
        operands.push(node);
        let head = implies();
        self.push(Node::Apply { head, operands })
    }

    /// The node of a term.
    fn node(&mut self, term: &'a Tree, names: &Names<'a>, in_response: bool) -> Option<usize> {
        let operands = operands(term).iter();
        let operands = operands.map(|operand| self.node(operand, names, in_response));
        let operands = operands.collect::<Option<Vec<usize>>>()?;
        let head = term.items().map_or(term, |items| &items[0]);
        let name = head.symbol().unwrap_or_default();
        if let Some(&node) = names.get(name) {
            return Some(node);
        }
        if self.functions.contains_key(name) {
            return self.call(name, operands);
        }
        let node = match literal_value(term) {
            Some(value) => Node::Literal(value),
            None if head.items().is_some() || operator(name).is_some() => {
                Node::Apply { head, operands }
            }
            None => return None,
        };
        let node = self.push(node)?;
        let place = self.places.entry((!in_response, term.start()));
        let place = place.or_insert(Place {
            term,
            in_response,
            nodes: Vec::new(),
        });
        place.nodes.push(node);
        Some(node)
    }

    /// The node of a function's body at operands.
    fn call(&mut self, name: &str, operands: Vec<usize>) -> Option<usize> {
        let (name, function) = self.functions.get_key_value(name)?;
        let key = (*name, operands);
        if let Some(&node) = self.called.get(&key) {
            return Some(node);
        }
        let names = function.arguments.iter().map(|one| one.name.as_str());
        let names = names.zip(key.1.iter().copied()).collect();
        let node = self.node(function.body, &names, function.in_response)?;
        self.called.insert(key, node);
        Some(node)
    }
}

impl Program<'_> {
    /// Whether all assumptions are true at a point, by the values of the nodes that stand below them.
    pub fn holds(&self, below: &[usize], point: &[u64], values: &mut [Value]) -> bool {
        self.enter(below.iter().copied(), point, values);
        let mut assumed = self.assumed.iter();
        assumed.all(|&node| values[node] == Value::Bool(true))
    }

    /// The values of all nodes at a point.
    pub fn values(&self, point: &[u64]) -> Vec<Value> {
        let mut values = vec![Value::Bool(false); self.nodes.len()];
        self.enter(0..self.nodes.len(), point, &mut values);
        values
    }

    /// Puts down the values at a point of some nodes, each after its operands.
    pub fn enter(&self, nodes: impl Iterator<Item = usize>, point: &[u64], values: &mut [Value]) {
        let mut given = Vec::new();
        for node in nodes {
            values[node] = match &self.nodes[node] {
                Node::Variable(index) => Value::new(self.variables[*index], point[*index]),
                Node::Literal(value) => *value,
                Node::Apply { head, operands } => {
                    given.clear();
                    given.extend(operands.iter().map(|&operand| values[operand]));
                    operator_value(head, &given)
                }
            };
        }
    }

    /// The value of a node that is no variable at values of its operands.
    pub fn applied(&self, node: usize, given: &[Value]) -> Value {
        match &self.nodes[node] {
            Node::Apply { head, .. } => operator_value(head, given),
            Node::Literal(value) => *value,
            Node::Variable(_) => unreachable!("a variable has no operands"),
        }
    }

    /// Some nodes and all that stand below them, each after its operands.
    pub fn below(&self, nodes: &[usize]) -> Vec<usize> {
        let mut below = vec![false; self.nodes.len()];
        nodes.iter().for_each(|&node| below[node] = true);
        for node in (0..self.nodes.len()).rev() {
            let operands = self.operands(node).iter();
            operands.for_each(|&operand| below[operand] |= below[node]);
        }
        (0..self.nodes.len()).filter(|&node| below[node]).collect()
    }

    /// How many operators stand between each node and the nearest constraint.
    pub fn heights(&self) -> Vec<u32> {
        let mut heights = vec![u32::MAX; self.nodes.len()];
        self.roots.iter().for_each(|&root| heights[root] = 0);
        for node in (0..self.nodes.len()).rev() {
            let height = heights[node].saturating_add(1);
            let operands = self.operands(node).iter();
            operands.for_each(|&operand| heights[operand] = heights[operand].min(height));
        }
        heights
    }

    /// The operands of a node.
    pub fn operands(&self, node: usize) -> &[usize] {
        match &self.nodes[node] {
            Node::Apply { operands, .. } => operands,
            _ => &[],
        }
    }

    /// Whether each node is one of some nodes or has one of them below it.
    pub fn above(&self, nodes: &[usize]) -> Vec<bool> {
        let mut above = vec![false; self.nodes.len()];
        nodes.iter().for_each(|&node| above[node] = true);
        for node in 0..self.nodes.len() {
            above[node] |= self.operands(node).iter().any(|&one| above[one]);
        }
        above
    }
}
