//! How often the left side of each `=>` of the constraints held, at points whose assumptions hold. The counts are the command's own and take no part in a verdict.

use crate::program::Program;
use simple::eval::Value;
use simple::operands;
use simple::script::Script;
use simple::tree::Tree;

/// The left side of a `=>`, and at how many points it held, of those at which constraints are evaluated.
#[derive(Clone, Debug, PartialEq, Eq)]
pub struct Guard {
    pub constraint: usize,
    /// The offset of the left side in the script.
    pub place: usize,
    pub term: String,
    pub held: u64,
}

/// The guards of a script while they are counted.
pub struct Count<'a> {
    program: &'a Program<'a>,
    guards: Vec<Guard>,
    /// For each guard its node, those of the left sides in whose right sides it stands, and those of the assumptions.
    nodes: Vec<Vec<usize>>,
    /// All that must be known to know the guards.
    below: Vec<usize>,
    values: Vec<Value>,
}

impl<'a> Count<'a> {
    /// The guards of a script, not counted yet.
    pub fn new(script: &Script, program: &'a Program<'a>) -> Count<'a> {
        let mut count = Count {
            program,
            guards: Vec::new(),
            nodes: Vec::new(),
            below: Vec::new(),
            values: vec![Value::Bool(false); program.nodes.len()],
        };
        for (index, constraint) in script.constraints.iter().enumerate() {
            count.enter(index, &constraint.term, &program.assumed);
        }
        count.below = program.below(&count.nodes.concat());
        count
    }

    /// Takes in the guards of a term that stands in the right sides of others.
    fn enter(&mut self, constraint: usize, term: &Tree, outer: &[usize]) {
        let Some((lefts, right)) = sides(term) else {
            let operands = operands(term).iter();
            return operands.for_each(|operand| self.enter(constraint, operand, outer));
        };
        let nodes = self.node(term).map(|node| self.program.operands(node));
        let mut outer = outer.to_vec();
        for (left, node) in lefts.iter().zip(nodes.unwrap_or_default()) {
            let nodes = [&outer[..], &[*node]].concat();
            self.guards.push(Guard {
                constraint,
                place: left.start(),
                term: left.to_string(),
                held: 0,
            });
            self.nodes.push(nodes.clone());
            self.enter(constraint, left, &outer);
            outer = nodes;
        }
        self.enter(constraint, right, &outer);
    }

    /// The node of an application of an operator in a constraint.
    fn node(&self, term: &Tree) -> Option<usize> {
        let mut places = self.program.places.iter();
        let place = places.find(|place| !place.in_response && place.term.start() == term.start());
        place?.nodes.first().copied()
    }

    /// Counts the guards that hold at points.
    pub fn add(&mut self, numbers: &[u64]) {
        if self.guards.is_empty() {
            return;
        }
        for point in numbers.chunks(self.program.variables.len().max(1)) {
            self.program
                .enter(self.below.iter().copied(), point, &mut self.values);
            for (guard, nodes) in self.guards.iter_mut().zip(&self.nodes) {
                let held = nodes
                    .iter()
                    .all(|&node| self.values[node] == Value::Bool(true));
                guard.held += u64::from(held);
            }
        }
    }

    /// The guards with their counts.
    pub fn guards(self) -> Vec<Guard> {
        self.guards
    }
}

/// The left sides of a `=>` and its right side: with more than two operands it groups from the right, so that each but the last is a left side.
pub fn sides(term: &Tree) -> Option<(&[Tree], &Tree)> {
    let [head, sides @ ..] = term.items()? else {
        return None;
    };
    let (right, lefts) = sides.split_last()?;
    (head.symbol() == Some("=>")).then_some((lefts, right))
}

#[cfg(test)]
mod tests {
    use super::*;
    use crate::program::program;

    #[test]
    fn left_sides_are_counted_where_those_around_them_hold() {
        let text = "(set-logic BV)(declare-var p Bool)(declare-var q Bool)(synth-fun f () Bool ((B Bool)) ((B Bool (true))))
            (constraint (=> p (=> (not q) f)))(constraint (and f (or p (=> (and p q) f))))(constraint f)(check-synth)";
        let script = simple::script::read(text.as_bytes()).expect("a sound script");
        let bodies = simple::response::read(b"((define-fun f () Bool true))", &script);
        let bodies = bodies.expect("a sound response");
        let program = program(&script, &bodies).expect("a program");
        let mut count = Count::new(&script, &program);
        count.add(&[0, 0, 0, 1, 1, 0]);
        count.add(&[1, 0]);
        let guards = count.guards();
        let found: Vec<(usize, &str, u64)> = guards
            .iter()
            .map(|one| (one.constraint, one.term.as_str(), one.held))
            .collect();
        assert_eq!(found, [(0, "p", 2), (0, "(not q)", 2), (1, "(and p q)", 0)]);
        assert_eq!(&text[guards[2].place..guards[2].place + 9], "(and p q)");
    }

    #[test]
    fn left_sides_are_counted_where_the_assumptions_hold() {
        let text = "(set-logic BV)(declare-var p Bool)(declare-var q Bool)(synth-fun f () Bool ((B Bool)) ((B Bool (true))))
            (constraint (=> p f))(assume q)(assume (=> p f))(check-synth)";
        let script = simple::script::read(text.as_bytes()).expect("a sound script");
        let bodies = simple::response::read(b"((define-fun f () Bool true))", &script);
        let bodies = bodies.expect("a sound response");
        let program = program(&script, &bodies).expect("a program");
        let mut count = Count::new(&script, &program);
        count.add(&[0, 0, 0, 1, 1, 0, 1, 1]);
        let guards = count.guards();
        let found: Vec<(&str, u64)> = guards
            .iter()
            .map(|one| (one.term.as_str(), one.held))
            .collect();
        assert_eq!(found, [("p", 1)]);
    }

    #[test]
    fn all_but_the_last_operand_are_left_sides() {
        let text = "(set-logic BV)(declare-var p Bool)(declare-var q Bool)(synth-fun f () Bool ((B Bool)) ((B Bool (true))))
            (constraint (=> p (not q) (=> q f) f))(check-synth)";
        let script = simple::script::read(text.as_bytes()).expect("a sound script");
        let bodies = simple::response::read(b"((define-fun f () Bool true))", &script);
        let bodies = bodies.expect("a sound response");
        let program = program(&script, &bodies).expect("a program");
        let mut count = Count::new(&script, &program);
        count.add(&[0, 0, 0, 1, 1, 0, 1, 1]);
        let guards = count.guards();
        let found: Vec<(&str, u64)> = guards
            .iter()
            .map(|one| (one.term.as_str(), one.held))
            .collect();
        assert_eq!(found, [("p", 2), ("(not q)", 1), ("(=> q f)", 1), ("q", 0)]);
    }
}
