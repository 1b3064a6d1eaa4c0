//! The calls of the checker: one for the texts alone, then one for each part of the point list. Every answer is the checker's own; only the index of a point is
//! put to that of the whole list, and units and the points whose assumptions hold are summed.

use crate::arguments::{Solver, BUDGET};
use crate::failure::Failure;
use crate::guards::{Count, Guard};
use crate::listing::{self, Listed};
use crate::points::{Origin, Parts, Points, Subject, Wanted, MOST_NUMBERS};
use crate::program::program;
use crate::progress::Progress;
use crate::refute::Claim;
use crate::source::Text;
use crate::{refute, smt};
use simple::eval::points_fault;
use simple::script::Script;
use simple::tree::Tree;
use sverdhyll::{Answer, Library, AREA_LENGTH};

/// What the checker is given.
pub struct Given {
    pub script: Text,
    pub response: Text,
    pub points: Points,
    pub budget: u64,
    /// What the script says; nothing where it is refused.
    pub read: Script,
    /// The bodies that the response gives; none where it is refused.
    pub bodies: Vec<Tree>,
}

impl Given {
    /// Two texts and what they say, without points.
    pub fn texts(script: Text, response: Text) -> Given {
        let read = simple::script::read(&script.bytes).unwrap_or_default();
        Given {
            bodies: simple::response::read(&response.bytes, &read).unwrap_or_default(),
            points: Points::none(),
            budget: BUDGET,
            script,
            response,
            read,
        }
    }
}

/// What the calls came to.
pub struct Run {
    pub answer: Answer,
    /// At how many points the checker was asked, until its answer was not 0.
    pub done: u64,
    /// The derivations that the checker shows.
    pub area: Vec<u16>,
    /// The numbers of the first call with points.
    pub first: Vec<u64>,
    /// The point that answer 14 or 15 names.
    pub point: Vec<u64>,
    /// After answer 0.
    pub guards: Vec<Guard>,
    /// What a solver that was asked says.
    pub claim: Option<Claim>,
}

/// Asks the checker about the texts alone: nothing is evaluated, unless there are no variables.
pub fn texts(library: &mut Library, given: &Given) -> Result<Run, Failure> {
    let mut run = Run {
        done: u64::from(given.read.variables.is_empty()),
        area: vec![0; AREA_LENGTH],
        ..Run::answered(Answer::default())
    };
    run.call(library, given, &[], given.budget)?;
    Ok(run)
}

/// Asks the checker about the texts, then at all points, which are made where none are given.
pub fn run(library: &mut Library, given: &mut Given, wanted: &Wanted) -> Result<Run, Failure> {
    let mut run = texts(library, given)?;
    let passed = run.answer.number == 0 && run.answer.second == 0;
    if passed && given.points.text.is_none() {
        given.points = wanted.made(&Subject {
            script: &given.read,
            bodies: &given.bodies,
            texts: [&given.script.bytes, &given.response.bytes],
            budget: given.budget,
        });
    }
    let judged = matches!(run.answer.number, 0 | 14 | 15);
    if judged && run.refuses(library, given)? {
        return Ok(run);
    }
    if passed {
        run.points(library, given)?;
    }
    Ok(run)
}

impl Run {
    /// An answer to a call without points, which shows no derivation.
    pub fn answered(answer: Answer) -> Run {
        Run {
            answer,
            done: 0,
            area: Vec::new(),
            first: Vec::new(),
            point: Vec::new(),
            guards: Vec::new(),
            claim: None,
        }
    }

    /// Asks for the steps of a function's body once the response is accepted, at the points of the first call; where the body has none, that is the answer.
    pub fn steps(
        &mut self,
        library: &mut Library,
        given: &Given,
        function: u64,
    ) -> Result<Option<Listed>, Failure> {
        let texts = [&given.script.bytes[..], &given.response.bytes];
        let mut area = listing::area();
        let stepped = library.steps(texts, &self.first, given.budget, function, &mut area)?;
        if stepped.answer.number != 0 {
            self.answer = stepped.answer;
        }
        Ok(Listed::new(&given.read, function, &area, stepped.count))
    }

    /// Asks a solver for a point at which a constraint is false, where the checker has found none and has not seen every point; the point that a solver gives
    /// comes after all others, and the answer there is the checker's own.
    pub fn refute(
        &mut self,
        library: &mut Library,
        given: &Given,
        solver: &Solver,
    ) -> Result<(), Failure> {
        let variables = &given.read.variables;
        let open = !matches!(given.points.origin, Origin::None | Origin::All);
        if self.answer.number != 0 || !open {
            return Ok(());
        }
        let question = smt::question(&given.read, &given.bodies);
        let claim = refute::ask(solver.0.as_deref(), &question, variables)?;
        let point = claim.point.clone();
        self.claim = Some(claim);
        let Some(point) = point else {
            return Ok(());
        };
        let accepted = self.answer;
        self.call(library, given, &point, given.budget - accepted.units)?;
        if self.answer.number == 0 {
            self.answer.second += accepted.second;
            self.done += 1;
        } else {
            self.answer.place += self.done;
            self.guards.clear();
        }
        self.answer.units += accepted.units;
        self.point = point;
        Ok(())
    }

    /// One call of the checker.
    fn call(
        &mut self,
        library: &mut Library,
        given: &Given,
        numbers: &[u64],
        budget: u64,
    ) -> Result<(), Failure> {
        let (script, response) = (&given.script.bytes, &given.response.bytes);
        self.answer = library.check(script, response, numbers, budget, &mut self.area)?;
        Ok(())
    }

    /// Whether the checker refuses the part of the given list that has the first fault: it comes before all evaluations.
    fn refuses(&mut self, library: &mut Library, given: &Given) -> Result<bool, Failure> {
        let numbers = &given.points.listed;
        let fault = points_fault(numbers, &given.read.variables);
        let Some(fault) = fault.filter(|_| given.points.text.is_some()) else {
            return Ok(false);
        };
        let width = given.read.variables.len().max(1);
        let part = MOST_NUMBERS / width * width;
        let start = fault.min(numbers.len().saturating_sub(1)) / part * part;
        let end = numbers.len().min(start + part);
        let accepted = self.answer;
        self.call(library, given, &numbers[start..end], given.budget)?;
        if self.answer.number != 16 {
            self.answer = accepted;
            return Ok(false);
        }
        self.answer.place += start as u64;
        Ok(true)
    }

    /// Asks the checker at all points, until one answer is not 0.
    fn points(&mut self, library: &mut Library, given: &Given) -> Result<(), Failure> {
        let variables = &given.read.variables;
        let program = program(&given.read, &given.bodies);
        let mut count = program
            .as_ref()
            .map(|program| Count::new(&given.read, program));
        let mut parts = Parts::new(&given.points, variables, program.as_ref());
        let mut progress = Progress::new(given.points.count(variables));
        let (mut held, mut units) = (0, 0);
        loop {
            let numbers = parts.next();
            if numbers.is_empty() {
                break;
            }
            self.call(library, given, &numbers, given.budget - units)?;
            if self.first.is_empty() {
                self.first.clone_from(&numbers);
            }
            units += self.answer.units;
            self.answer.units = units;
            if self.answer.number != 0 {
                let at = self.answer.place as usize * variables.len();
                self.point = numbers
                    .get(at..at + variables.len())
                    .unwrap_or_default()
                    .to_vec();
                self.answer.place += self.done;
                return Ok(());
            }
            held += self.answer.second;
            self.answer.second = held;
            self.done += (numbers.len() / variables.len()) as u64;
            if let Some(count) = &mut count {
                count.add(&numbers);
            }
            progress.show(self.done);
        }
        self.guards = count.map(Count::guards).unwrap_or_default();
        Ok(())
    }
}
