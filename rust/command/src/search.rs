//! Points at which a slip would show. A point is good if some constraint would have another truth value there, were one digit of one literal or one operator
//! otherwise; and if a condition holds there, or fails, that did not so before. Such points are looked for by a small local search: an operand that hides a
//! change is given a value at which it does not, and the variables below it are moved until it has that value. Nothing here takes part in a verdict.

use crate::program::{Node, Program};
use crate::slips::{slips, Change, Slip};
use crate::trials::Trials;
use simple::eval::{operator_value, Value};
use simple::operators::Sort;
use std::rc::Rc;

/// So many applications of operators are tried in all, whatever the texts are.
const MOST_SPENT: u64 = 20_000_000;
/// The shares of these, in quarters, after which conditions, literals of bodies, and all else are no longer looked for.
const QUARTERS: [u64; 3] = [1, 3, 4];
/// So many values of points are kept.
const MOST_VALUES: usize = 4_000_000;
/// How often the variables are moved for each slip, round after round.
const ROUNDS: [usize; 4] = [4, 16, 64, 256];
/// How often the variables are moved from one point before another is taken.
const MOVES: usize = 12;
/// How often the variables are moved for each condition.
const CONDITION_MOVES: usize = 24;
/// Variables are moved through at most so many operators.
const MOST_DEPTH: usize = 400;
/// All values of so many truths are tried together.
const FEW_TRUTHS: usize = 8;
/// So many pairs of operands count as one application more.
const PAIRS: u64 = 16;

/// A point with the values of all nodes.
#[derive(Clone)]
struct At {
    point: Vec<u64>,
    values: Rc<Vec<Value>>,
}

/// A slip for which no point is found, and at how many of the points that are kept it was looked for.
struct Open {
    slip: Slip,
    seen: usize,
}

/// A search and what it has found.
struct Search<'a> {
    program: &'a Program<'a>,
    trials: Trials,
    /// How much may be spent so far.
    most: u64,
    /// Whether a variable stands below each node.
    free: Vec<bool>,
    /// How many operators stand between each node and a constraint.
    height: Vec<u32>,
    /// Points to begin with.
    pool: Vec<At>,
    kept: Vec<At>,
    /// A point at which a constraint is false.
    refuting: Option<Vec<u64>>,
}

/// Good points, found from a pool and with a seed; one at which a constraint is false stands first, and ends the search.
pub fn search(program: &Program, pool: &[Vec<u64>], seed: u64) -> Vec<Vec<u64>> {
    let mut search = Search::new(program, seed);
    let room = (MOST_VALUES / program.nodes.len().max(1)).max(16);
    for point in pool.iter().take(room) {
        search.enter(point.clone());
    }
    search.conditions();
    search.slips();
    let kept = search.kept.into_iter().map(|at| at.point);
    search.refuting.into_iter().chain(kept).collect()
}

impl<'a> Search<'a> {
    /// A search that has found nothing yet.
    fn new(program: &'a Program<'a>, seed: u64) -> Search<'a> {
        let nodes = &program.nodes;
        let variables = (0..nodes.len()).filter(|&one| matches!(nodes[one], Node::Variable(_)));
        Search {
            program,
            trials: Trials::new(seed),
            most: MOST_SPENT / 4 * QUARTERS[0],
            free: program.above(&variables.collect::<Vec<usize>>()),
            height: program.heights(),
            pool: Vec::new(),
            kept: Vec::new(),
            refuting: None,
        }
    }

    /// Whether the search is over.
    fn over(&self) -> bool {
        self.refuting.is_some() || self.trials.spent > self.most
    }

    /// Counts what applications of a node take beyond one each, where it has many operands: `distinct` compares every two.
    fn charge(&mut self, node: usize, applications: u64) {
        let operands = self.program.operands(node).len() as u64;
        self.trials.spent += applications * (operands * operands / PAIRS);
    }

    /// A point with its values; one at which a constraint is false is what was looked for.
    fn at(&mut self, point: Vec<u64>) -> At {
        let values = Rc::new(self.program.values(&point));
        self.trials.spent += values.len() as u64;
        (0..values.len()).for_each(|node| self.charge(node, 1));
        let mut roots = self.program.roots.iter();
        if roots.any(|&root| values[root] == Value::Bool(false)) {
            self.refuting.get_or_insert(point.clone());
        }
        At { point, values }
    }

    /// Takes a point into the pool.
    fn enter(&mut self, point: Vec<u64>) {
        if !self.over() {
            let at = self.at(point);
            self.pool.push(at);
        }
    }

    /// Keeps a point.
    fn keep(&mut self, at: At) {
        let most = MOST_VALUES / self.program.nodes.len().max(1);
        let known = self.kept.iter().any(|one| one.point == at.point);
        if !known && self.kept.len() < most.max(16) {
            self.kept.push(at);
        }
    }

    /// Looks for points at which each condition of the constraints holds, and at which it fails.
    fn conditions(&mut self) {
        for node in 0..self.program.nodes.len() {
            let Some(Value::Bool(_)) = self.pool.first().map(|at| at.values[node]) else {
                continue;
            };
            if !self.free[node] || self.program.operands(node).is_empty() {
                continue;
            }
            for wanted in [Value::Bool(true), Value::Bool(false)] {
                let has = |at: &&At| at.values[node] == wanted;
                if !self.over() && !self.kept.iter().any(|at| has(&at)) {
                    let found = self.pool.iter().find(has).cloned();
                    let found = found.or_else(|| self.reached(node, wanted));
                    if let Some(at) = found {
                        self.keep(at);
                    }
                }
            }
        }
    }

    /// A point at which a node has a value.
    fn reached(&mut self, node: usize, wanted: Value) -> Option<At> {
        let mut from = self.start()?;
        for count in 1..=CONDITION_MOVES {
            let mut point = from.point.clone();
            if self.move_to(&from.values, node, wanted, &mut point, 0) {
                from = self.at(point);
            }
            if from.values[node] == wanted {
                return Some(from);
            }
            if count % 4 == 0 {
                from = self.start()?;
            }
        }
        None
    }

    /// A point to begin with: one that was kept, or one of the pool.
    fn start(&mut self) -> Option<At> {
        let random = &mut self.trials.random;
        let kept = random.below(2) == 0;
        let from = if kept && !self.kept.is_empty() {
            &self.kept
        } else {
            &self.pool
        };
        random.pick(from).cloned()
    }

    /// Looks for a point for each slip, longer in each round for those that have none.
    fn slips(&mut self) {
        let Some(first) = self.pool.first() else {
            return;
        };
        let sorts: Vec<Sort> = first.values.iter().map(|value| value.sort()).collect();
        for (slips, quarters) in slips(self.program, &sorts).into_iter().zip(&QUARTERS[1..]) {
            self.most = MOST_SPENT / 4 * quarters;
            let open = slips.into_iter().map(|slip| Open { slip, seen: 0 });
            let mut open: Vec<Open> = open.collect();
            open.retain_mut(|one| !self.over() && !self.shows_in_pool(one));
            for moves in ROUNDS {
                open.retain_mut(|one| !self.over() && !self.shows(one, moves));
            }
        }
    }

    /// Whether a slip shows at a point that is kept, or in the pool, from where the point is then kept.
    fn shows_in_pool(&mut self, open: &mut Open) -> bool {
        if self.shows_at_kept(open) {
            return true;
        }
        for index in 0..self.pool.len() {
            let at = self.pool[index].clone();
            let other = self.slipped(&open.slip, &at.values);
            if self.shown(&at.values, &other) {
                self.keep(at);
                return true;
            }
        }
        false
    }

    /// Whether a slip shows at a point that was kept since it was last looked for.
    fn shows_at_kept(&mut self, open: &mut Open) -> bool {
        while open.seen < self.kept.len() {
            let values = self.kept[open.seen].values.clone();
            open.seen += 1;
            let other = self.slipped(&open.slip, &values);
            if self.shown(&values, &other) {
                return true;
            }
        }
        false
    }

    /// Whether a point at which a slip shows is kept, or found within so many moves.
    fn shows(&mut self, open: &mut Open, moves: usize) -> bool {
        if self.shows_at_kept(open) {
            return true;
        }
        for _ in 0..moves.div_ceil(MOVES) {
            let Some(from) = self.start() else {
                return false;
            };
            if let Some(found) = self.walk(&open.slip, from, moves.min(MOVES)) {
                self.keep(found);
                return true;
            }
            if self.over() {
                return true;
            }
        }
        false
    }

    /// A point at which a slip shows, reached from another by moves that bring the change nearer to a constraint.
    fn walk(&mut self, slip: &Slip, mut from: At, moves: usize) -> Option<At> {
        let mut other = self.slipped(slip, &from.values);
        for _ in 0..moves {
            if self.shown(&from.values, &other) {
                return Some(from);
            }
            let Some(point) = self.uncovered(slip, &from, &other) else {
                continue;
            };
            let next = self.at(point);
            let changed = self.slipped(slip, &next.values);
            let nearer =
                self.distance(&next.values, &changed) <= self.distance(&from.values, &other);
            if nearer || self.trials.random.below(4) == 0 {
                (from, other) = (next, changed);
            }
        }
        self.shown(&from.values, &other).then_some(from)
    }

    /// Whether a constraint has two truth values.
    fn shown(&self, values: &[Value], other: &[Value]) -> bool {
        let mut roots = self.program.roots.iter();
        roots.any(|&root| values[root] != other[root])
    }

    /// How far a change is from a constraint.
    fn distance(&self, values: &[Value], other: &[Value]) -> u32 {
        let changed = (0..values.len()).filter(|&node| values[node] != other[node]);
        changed
            .map(|node| self.height[node])
            .min()
            .unwrap_or(u32::MAX)
    }

    /// The values of all nodes once a slip is made.
    fn slipped(&mut self, slip: &Slip, values: &[Value]) -> Vec<Value> {
        let mut other = values.to_vec();
        let mut given = Vec::new();
        for &(node, made) in slip.nodes.iter() {
            given.clear();
            given.extend(self.program.operands(node).iter().map(|&one| other[one]));
            other[node] = self.applied(made.then_some(slip), node, &given);
            self.charge(node, 1);
        }
        self.trials.spent += slip.nodes.len() as u64;
        other
    }

    /// The value of a node that is no variable at operands, with a slip made at it or none.
    fn applied(&self, slip: Option<&Slip>, node: usize, given: &[Value]) -> Value {
        match slip.map(|slip| &slip.change) {
            Some(Change::Literal(value)) => *value,
            Some(Change::Operator(head)) => operator_value(head, given),
            None => self.program.applied(node, given),
        }
    }

    /// A point that is moved so that a node which hides a change would show it.
    fn uncovered(&mut self, slip: &Slip, from: &At, other: &[Value]) -> Option<Vec<u64>> {
        let values = &from.values;
        let hides = |&&(node, made): &&(usize, bool)| {
            let mut operands = self.program.operands(node).iter();
            values[node] == other[node] && (made || operands.any(|&one| values[one] != other[one]))
        };
        let hiding: Vec<(usize, bool)> = slip.nodes.iter().filter(hides).copied().collect();
        let nearest = hiding
            .iter()
            .min_by_key(|(node, _)| self.height[*node])
            .copied();
        let any = self.trials.random.pick(&hiding).copied();
        let (node, made) = match self.trials.random.below(4) {
            0 => any?,
            _ => nearest?,
        };
        let made = made.then_some(slip);
        let mut point = from.point.clone();
        for index in self.order(node) {
            let operand = self.program.operands(node)[index];
            let wanted = self.uncovering(made, node, index, values, other);
            let wanted = self.trials.random.pick(&wanted).copied();
            let moved =
                wanted.is_some_and(|wanted| self.move_to(values, operand, wanted, &mut point, 0));
            if moved {
                return Some(point);
            }
        }
        self.shaken(node, values, point)
    }

    /// The operands of a node with variables below them, by their indices, in some order.
    fn order(&mut self, node: usize) -> Vec<usize> {
        let operands = self.program.operands(node);
        let mut order: Vec<usize> = (0..operands.len())
            .filter(|&index| self.free[operands[index]])
            .collect();
        for index in (1..order.len()).rev() {
            let other = self.trials.random.below(index + 1);
            order.swap(index, other);
        }
        order
    }

    /// The values of an operand at which a node shows a change.
    fn uncovering(
        &mut self,
        made: Option<&Slip>,
        node: usize,
        index: usize,
        values: &[Value],
        other: &[Value],
    ) -> Vec<Value> {
        let operands = self.program.operands(node);
        let mut given: Vec<Value> = operands.iter().map(|&one| values[one]).collect();
        let mut changed: Vec<Value> = operands.iter().map(|&one| other[one]).collect();
        let mut about = changed.clone();
        about.extend(&given);
        let mut trials = self.trials.values(given[index], &about);
        self.trials.spent += 2 * trials.len() as u64;
        self.charge(node, 2 * trials.len() as u64);
        trials.retain(|&value| {
            (given[index], changed[index]) = (value, value);
            self.applied(None, node, &given) != self.applied(made, node, &changed)
        });
        trials
    }

    /// A point at which some operand of a node has some other value.
    fn shaken(&mut self, node: usize, values: &[Value], mut point: Vec<u64>) -> Option<Vec<u64>> {
        let index = *self.order(node).first()?;
        let operand = self.program.operands(node)[index];
        let trials = self.trials.values(values[operand], &[values[operand]]);
        let wanted = *self.trials.random.pick(&trials)?;
        let moved = self.move_to(values, operand, wanted, &mut point, 0);
        moved.then_some(point)
    }

    /// Moves the variables below a node so that it has a value, as if each stood in one place; says whether that could be done.
    fn move_to(
        &mut self,
        values: &[Value],
        node: usize,
        wanted: Value,
        point: &mut [u64],
        depth: usize,
    ) -> bool {
        match &self.program.nodes[node] {
            _ if values[node] == wanted => true,
            Node::Variable(index) => {
                point[*index] = wanted.number();
                true
            }
            Node::Literal(_) => false,
            _ if depth > MOST_DEPTH || self.trials.spent > self.most => false,
            Node::Apply { .. } => {
                let order = self.order(node);
                let mut order = order.into_iter();
                order.any(|index| self.move_operand(values, (node, index), wanted, point, depth))
                    || self.move_all(values, node, wanted, point, depth)
            }
        }
    }

    /// Moves the variables below an operand of a node, all others staying as they are, so that the node has a value.
    fn move_operand(
        &mut self,
        values: &[Value],
        (node, index): (usize, usize),
        wanted: Value,
        point: &mut [u64],
        depth: usize,
    ) -> bool {
        let operands = self.program.operands(node);
        let given: Vec<Value> = operands.iter().map(|&one| values[one]).collect();
        let apply = |value: Value| {
            let mut given = given.clone();
            given[index] = value;
            self.program.applied(node, &given)
        };
        let others = (0..given.len()).filter(|&one| one != index);
        let mut about = vec![wanted];
        about.extend(others.map(|one| given[one]));
        about.extend([given[index], values[node]]);
        let before = self.trials.spent;
        let found = self.trials.inverses(&apply, given[index], wanted, &about);
        self.charge(node, self.trials.spent - before);
        let found = self.trials.random.pick(&found).copied();
        found.is_some_and(|value| self.move_to(values, operands[index], value, point, depth + 1))
    }

    /// Moves the variables below a node so that all its operands together give it a value.
    fn move_all(
        &mut self,
        values: &[Value],
        node: usize,
        wanted: Value,
        point: &mut [u64],
        depth: usize,
    ) -> bool {
        let Node::Apply { head, operands } = &self.program.nodes[node] else {
            return false;
        };
        let now: Vec<Value> = operands.iter().map(|&one| values[one]).collect();
        let mut fitting = together(&now);
        self.charge(node, fitting.len() as u64);
        fitting.retain(|given| operator_value(head, given) == wanted);
        let Some(given) = self.trials.random.pick(&fitting).cloned() else {
            return false;
        };
        let mut moved = true;
        for (&operand, value) in operands.iter().zip(given) {
            moved &= self.move_to(values, operand, value, point, depth + 1);
        }
        moved
    }
}

/// Values of all operands of a node to try together, in the place of those that they have now: of a few truths all that there are, of many those that are alike but
/// for one, of more than two words of one width those that are alike.
fn together(now: &[Value]) -> Vec<Vec<Value>> {
    let alike = now.windows(2).all(|two| two[0].sort() == two[1].sort());
    match now.first().map(|first| first.sort()) {
        Some(Sort::Bool) if alike && now.len() <= FEW_TRUTHS => {
            let given = |bits: usize| {
                (0..now.len())
                    .map(|one| Value::Bool(bits >> one & 1 == 1))
                    .collect()
            };
            (0..1 << now.len()).map(given).collect()
        }
        Some(Sort::Bool) if alike => [true, false]
            .into_iter()
            .flat_map(|holds| all_but_one(now.len(), holds))
            .collect(),
        Some(Sort::BitVec(_)) if alike && now.len() > 2 => {
            now.iter().map(|&one| vec![one; now.len()]).collect()
        }
        _ => Vec::new(),
    }
}

/// So many truths that are alike, and those in which one is not.
fn all_but_one(count: usize, holds: bool) -> Vec<Vec<Value>> {
    let alike = vec![Value::Bool(holds); count];
    let but = |index: usize| {
        let mut given = alike.clone();
        given[index] = Value::Bool(!holds);
        given
    };
    (0..count).map(but).chain([alike.clone()]).collect()
}

#[cfg(test)]
mod tests {
    use super::*;
    use crate::program::program;

    /// Whether a point is found at which a constraint on variables v0 to v9 is false.
    fn refuted(constraint: &str) -> bool {
        let variables = (0..10).map(|index| format!("(declare-var v{index} (_ BitVec 32))"));
        let text = format!(
            "(set-logic BV){}(synth-fun f () Bool ((B Bool)) ((B Bool (true))))(constraint {constraint})(check-synth)",
            variables.collect::<String>()
        );
        let script = simple::script::read(text.as_bytes()).expect("a sound script");
        let bodies = simple::response::read(b"((define-fun f () Bool true))", &script);
        let bodies = bodies.expect("a sound response");
        let program = program(&script, &bodies).expect("a program");
        let points = search(&program, &[(0..10).collect(), (20..30).collect()], 1);
        let root = program.roots[0];
        let is_false = |point: &Vec<u64>| program.values(point)[root] == Value::Bool(false);
        points.first().is_some_and(is_false)
    }

    #[test]
    fn operands_of_operators_with_many_are_moved_together() {
        let equations = (0..10).map(|index| format!(" (= v{index} #x1234567{index})"));
        let equations: String = equations.collect();
        for constraint in [
            "(not (= v0 v1 v2 (_ bv305419896 32)))".to_string(),
            format!("(not (and{equations}))"),
            format!("(=>{equations} (not f))"),
            format!("(or{} (not f))", equations.replace("(= ", "(distinct ")),
        ] {
            assert!(refuted(&constraint), "{constraint}");
        }
    }
}
