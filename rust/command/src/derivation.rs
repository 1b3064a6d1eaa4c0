//! Derivations, step by step: the rule numbers that the checker shows, replayed on the body.

use crate::pieces::{pieces, Piece};
use simple::eval::{literal_value, Value};
use simple::grammar::{Form, Grammar, Rule};
use simple::replay::is_argument;
use simple::script::Synthesized;
use simple::tree::{joined, Tree};
use std::collections::HashSet;

/// One step: a rule replaces the leftmost non-terminal.
#[derive(Clone, Debug, PartialEq, Eq)]
pub struct Step {
    pub number: u16,
    pub nonterminal: String,
    /// The rule's weight.
    pub weight: u64,
    /// The rule's own text.
    pub rule: String,
    /// The literal or argument that a rule `(Constant σ)` or `(Variable σ)` stands for here.
    pub given: Option<String>,
    /// The rule as the body writes it, where the body writes a literal otherwise.
    pub written: Option<String>,
    /// The term after the step.
    pub term: String,
}

/// A part of the term that is derived: words of the body, or a non-terminal and the node of the body that is to come from it.
#[derive(Clone, Debug)]
enum Part<'a> {
    Words(String),
    Nonterminal(usize, &'a Tree),
}

/// A term while it is derived.
struct Replay<'a> {
    function: &'a Synthesized,
    term: Vec<Part<'a>>,
    /// The non-terminals that were used, each with the node of the body, which no other node is.
    used: HashSet<(usize, *const Tree)>,
}

/// How far a list of rules can be followed: the steps, and why it cannot be from there on, where it does not derive the body.
pub struct Followed {
    pub steps: Vec<Step>,
    pub stop: Option<String>,
}

/// The steps by which a function's grammar derives a body; an error says where the rule numbers do not lead to it.
pub fn steps(function: &Synthesized, body: &Tree, shown: &[u16]) -> Result<Vec<Step>, String> {
    let followed = follow(function, body, shown);
    match followed.stop {
        None => Ok(followed.steps),
        Some(why) => Err(why),
    }
}

/// Follows a list of rules from the start on, as far as it leads to the body and uses no non-terminal twice at one place.
pub fn follow(function: &Synthesized, body: &Tree, list: &[u16]) -> Followed {
    let mut replay = Replay {
        function,
        term: vec![Part::Nonterminal(0, body)],
        used: HashSet::new(),
    };
    let mut steps = Vec::new();
    for &number in list {
        match replay.step(number) {
            Ok(step) => steps.push(step),
            Err(why) => {
                let stop = Some(why);
                return Followed { steps, stop };
            }
        }
    }
    let stop = replay.leftmost().map(|(_, index, node)| {
        let name = &function.grammar.nonterminals[index].name;
        format!("the list ends, and {name} is left, which is to derive {node}")
    });
    Followed { steps, stop }
}

impl<'a> Replay<'a> {
    /// The leftmost non-terminal: where it stands in the term, its index and its node.
    fn leftmost(&self) -> Option<(usize, usize, &'a Tree)> {
        let mut parts = self.term.iter().enumerate();
        parts.find_map(|(place, part)| match part {
            Part::Nonterminal(index, node) => Some((place, *index, *node)),
            Part::Words(_) => None,
        })
    }

    /// Replaces the leftmost non-terminal by a rule.
    fn step(&mut self, number: u16) -> Result<Step, String> {
        let (place, index, node) = self.leftmost().ok_or("no non-terminal is left")?;
        let grammar = &self.function.grammar;
        let name = &grammar.nonterminals[index].name;
        let rule = grammar.rules.get(usize::from(number));
        let rule = rule.ok_or(format!("the grammar has no rule {number}"))?;
        if rule.nonterminal != index {
            let other = &grammar.nonterminals[rule.nonterminal].name;
            return Err(format!(
                "rule {number} is one of {other}, and {name} is next"
            ));
        }
        if !self.used.insert((index, node as *const Tree)) {
            return Err(format!("{name} is used twice at one place, {node}"));
        }
        let own = rule.form.to_string();
        let parts = self.parts(rule, node);
        let parts = parts.ok_or(format!("rule {number}, {own}, does not derive {node}"))?;
        let written = Some(self.text(&parts)).filter(|written| *written != own);
        let (given, written) = match rule.form {
            Form::Term(_) => (None, written),
            _ => (written, None),
        };
        self.term.splice(place..=place, parts);
        Ok(Step {
            number,
            nonterminal: name.clone(),
            weight: rule.weight,
            rule: own,
            given,
            written,
            term: self.text(&self.term),
        })
    }

    /// What a rule puts at a node of the body; none where it does not derive the node.
    fn parts(&self, rule: &Rule, node: &'a Tree) -> Option<Vec<Part<'a>>> {
        match &rule.form {
            Form::Term(term) => matched(&self.function.grammar, term, node),
            any => derives(any, &pieces(node), self.function).then(|| words(node)),
        }
    }

    /// Parts of the term on one line.
    fn text(&self, parts: &[Part]) -> String {
        let nonterminals = &self.function.grammar.nonterminals;
        joined(parts.iter().map(|part| match part {
            Part::Words(words) => words,
            Part::Nonterminal(index, _) => nonterminals[*index].name.as_str(),
        }))
    }
}

/// A node of the body without non-terminals.
fn words<'a>(node: &Tree) -> Vec<Part<'a>> {
    vec![Part::Words(node.to_string())]
}

/// The parts of a rule's term at a node of the body: literals are compared by value and width, all else as it is written.
fn matched<'a>(grammar: &Grammar, term: &Tree, node: &'a Tree) -> Option<Vec<Part<'a>>> {
    if let Some(index) = grammar.nonterminal(term) {
        return Some(vec![Part::Nonterminal(index, node)]);
    }
    if let Some(value) = literal_value(term) {
        return (literal_value(node) == Some(value)).then(|| words(node));
    }
    let (Some(term), Some(items)) = (term.items(), node.items()) else {
        return term.same_words(node).then(|| words(node));
    };
    if term.len() != items.len() {
        return None;
    }
    let inner = term
        .iter()
        .zip(items)
        .map(|(term, node)| matched(grammar, term, node));
    let inner = inner.collect::<Option<Vec<Vec<Part>>>>()?.concat();
    let bracket = |bracket: &str| vec![Part::Words(bracket.to_string())];
    Some([bracket("("), inner, bracket(")")].concat())
}

/// Whether `(Constant σ)` or `(Variable σ)` derives what has these pieces.
fn derives(form: &Form, pieces: &[Piece], function: &Synthesized) -> bool {
    match (form, pieces) {
        (Form::Constant(sort), [only]) => only.value.map(Value::sort) == Some(*sort),
        (Form::Variable(sort), [only]) => is_argument(&only.text, *sort, &function.arguments),
        _ => false,
    }
}

/// The first word or literal of a body that no rule of the grammar can give.
pub fn stranger(function: &Synthesized, body: &Tree) -> Option<Piece> {
    let given = |piece: &Piece| {
        let mut rules = function.grammar.rules.iter();
        rules.any(|rule| match &rule.form {
            Form::Term(term) => pieces(term).iter().any(|own| own.same(piece)),
            any => derives(any, std::slice::from_ref(piece), function),
        })
    };
    let mut pieces = pieces(body).into_iter();
    pieces.find(|piece| !["(", ")"].contains(&piece.text.as_str()) && !given(piece))
}

#[cfg(test)]
mod tests {
    use super::*;
    use simple::{response, script, tree, words};

    /// The only function of a script, and a body for it that need not be derived or even sorted.
    fn parts(script: &str, body: &str) -> (Synthesized, Tree) {
        let words = words::read(body.as_bytes(), response::MOST_WORDS);
        let body = tree::trees(words.expect("sound words")).remove(0);
        let script = script::read(script.as_bytes());
        (script.expect("a sound script").synthesized.remove(0), body)
    }

    /// A grammar with every form of rule.
    const SCRIPT: &str = "(set-logic BV)
        (synth-fun f ((a (_ BitVec 8)) (p Bool)) (_ BitVec 8) ((S (_ BitVec 8)) (T (_ BitVec 8)))
        ((S (_ BitVec 8) (T (bvand S T))) (T (_ BitVec 8) ((Constant (_ BitVec 8)) (Variable (_ BitVec 8))))))
        (check-synth)";

    #[test]
    fn steps_lead_to_the_body() {
        let (function, body) = parts(SCRIPT, "(bvand a #x0f)");
        let steps = steps(&function, &body, &[1, 0, 3, 2]).expect("a derivation");
        let terms: Vec<&str> = steps.iter().map(|step| step.term.as_str()).collect();
        assert_eq!(
            terms,
            [
                "(bvand S T)",
                "(bvand T T)",
                "(bvand a T)",
                "(bvand a #x0f)"
            ]
        );
        assert_eq!(steps[3].rule, "(Constant (_ BitVec 8))");
        assert_eq!(steps[3].given.as_deref(), Some("#x0f"));
        assert_eq!(
            (steps[0].nonterminal.as_str(), steps[1].given.as_deref()),
            ("S", None)
        );
    }

    #[test]
    fn a_literal_that_is_written_otherwise() {
        let script = "(set-logic BV)
            (synth-fun f ((a (_ BitVec 8))) (_ BitVec 8) ((bv5 (_ BitVec 8)) (T (_ BitVec 8)))
            ((bv5 (_ BitVec 8) ((ite (= T (_ bv5 8)) bv5 #x00) T)) (T (_ BitVec 8) (a #x0F (Constant (_ BitVec 8))))))
            (check-synth)";
        let (function, body) = parts(script, "(ite (= #b00001111 #x05) (_ bv7 8) #x00)");
        let steps = steps(&function, &body, &[0, 3, 1, 4]).expect("a derivation");
        let said = steps
            .iter()
            .map(|one| (one.given.as_deref(), one.written.as_deref()));
        let expected = [
            (None, Some("(ite (= T #x05) bv5 #x00)")),
            (None, Some("#b00001111")),
            (None, None),
            (Some("(_ bv7 8)"), None),
        ];
        assert_eq!(said.collect::<Vec<_>>(), expected);
        assert_eq!(steps[2].term, "(ite (= #b00001111 #x05) T #x00)");
        assert_eq!(steps[3].term, body.to_string());
        let (_, other) = parts(script, "(ite (= #x0F #x06) #x07 #x00)");
        assert!(super::steps(&function, &other, &[0, 3, 1, 4]).is_err());
    }

    #[test]
    fn other_rules_do_not() {
        let (function, body) = parts(SCRIPT, "(bvand a #x0f)");
        for shown in [
            &[][..],
            &[1, 0, 3],
            &[1, 0, 2, 2],
            &[0, 3],
            &[1, 0, 3, 2, 2],
            &[9],
            &[2],
        ] {
            assert!(steps(&function, &body, shown).is_err(), "{shown:?}");
        }
    }

    #[test]
    fn where_a_list_cannot_be_followed() {
        let script = "(set-logic BV)
            (synth-fun f ((a (_ BitVec 8))) (_ BitVec 8) ((S (_ BitVec 8)) (T (_ BitVec 8)))
            ((S (_ BitVec 8) (T (bvand S T))) (T (_ BitVec 8) (S a #x0f))))
            (check-synth)";
        let (function, body) = parts(script, "(bvand a #x0f)");
        for (list, entry, why) in [
            (&[1, 0, 3, 4][..], 4, None),
            (&[1, 0, 3, 4, 4], 4, Some("no non-terminal is left")),
            (
                &[1, 0, 3],
                3,
                Some("the list ends, and T is left, which is to derive #x0f"),
            ),
            (
                &[],
                0,
                Some("the list ends, and S is left, which is to derive (bvand a #x0f)"),
            ),
            (&[1, 7], 1, Some("the grammar has no rule 7")),
            (&[1, 3], 1, Some("rule 3 is one of T, and S is next")),
            (&[1, 0, 4], 2, Some("rule 4, #x0f, does not derive a")),
            (
                &[0, 2, 1, 0, 3, 4],
                2,
                Some("S is used twice at one place, (bvand a #x0f)"),
            ),
            (
                &[1, 0, 2, 0, 3, 4],
                3,
                Some("S is used twice at one place, a"),
            ),
            (
                &[1, 0, 3, 2, 0, 4],
                5,
                Some("T is used twice at one place, #x0f"),
            ),
        ] {
            let followed = follow(&function, &body, list);
            let found = (followed.steps.len(), followed.stop.as_deref());
            assert_eq!(found, (entry, why), "{list:?}");
        }
        let (_, twice) = parts(script, "(bvand (bvand a a) a)");
        assert!(steps(&function, &twice, &[1, 1, 0, 3, 3, 3]).is_ok());
    }

    #[test]
    fn words_that_no_rule_gives() {
        for (body, expected) in [
            ("(bvand a #x0f)", None),
            ("(bvand a (_ bv15 8))", None),
            ("(bvand a #b0)", Some((9..12, "#b0"))),
            ("(bvand a (_  bv5 4))", Some((9..19, "(_ bv5 4)"))),
            ("(bvor a p)", Some((1..5, "bvor"))),
            ("p", Some((0..1, "p"))),
        ] {
            let (function, body) = parts(SCRIPT, body);
            let found = stranger(&function, &body);
            let found = found
                .as_ref()
                .map(|piece| (piece.at.clone(), piece.text.as_str()));
            assert_eq!(found, expected);
        }
    }

    #[test]
    fn what_the_simple_checker_shows_can_be_followed() {
        for seed in 0..400 {
            let case = simple::generate::valid(seed);
            let mut area = vec![0; simple::AREA_LENGTH];
            let simple::generate::Case {
                script,
                response,
                points,
                budget,
            } = &case;
            simple::check(script, response, points, *budget, &mut area);
            let script = script::read(script).expect("a sound script");
            let bodies = response::read(response, &script).expect("a sound response");
            let lists = area.chunks(simple::LIST_LENGTH);
            for ((function, body), list) in script.synthesized.iter().zip(&bodies).zip(lists) {
                let shown = list.split(|&entry| entry == simple::UNUSED).next();
                let steps = steps(function, body, shown.unwrap_or_default());
                let steps = steps.expect("a derivation");
                let last = steps.last().map(|step| step.term.as_str());
                assert_eq!(last, Some(body.to_string().as_str()), "seed {seed}");
                assert!(stranger(function, body).is_none(), "seed {seed}");
            }
        }
    }
}
