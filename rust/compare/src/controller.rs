//! Holds the steps of bodies and the runs of lists against each other: what both write for a body, its value beside that of the checker, and foreign lists.

use crate::judge::given;
use crate::trial::Trial;
use simple::eval::Value;
use simple::generate::random::Random;
use simple::generate::{foreign, value, Run};
use simple::script::Synthesized;
use simple::steps::{width, Cause, Refusal};
use simple::tree::{trees, Tree};
use simple::{script, words};
use std::io;
use sverdhyll::{Answer, Library, Ran, Stepped, AREA_LENGTH, STEP, STEPS_LENGTH};

/// How often each body's list is run on arguments.
const RUNS: usize = 2;

/// How many kinds of calls there are.
pub const KINDS: usize = 22;

/// What came out of the calls, each of which must.
pub const NAMES: [&str; KINDS] = [
    "steps of an accepted body",
    "steps of a body with more than 64 nodes",
    "steps asked of a response that is not accepted",
    "answer 17, an area for steps of wrong size",
    "answer 18, a function that the script lacks",
    "answer 18, a body that uses a define-fun",
    "runs of bodies with the value that the checker finds",
    "runs of foreign lists with answer 0",
    "answer 19, a list that is cut short",
    "answer 19, a malformed step",
    "answer 19, an argument that is not there",
    "answer 19, a constant of no sort",
    "answer 19, an operator that is not in the table",
    "answer 19, an operator with a wrong operand count",
    "answer 19, too few operands on the stack",
    "answer 19, operands of wrong sorts",
    "answer 19, a 257th value",
    "answer 19, a list that ends with no value",
    "answer 19, a list that ends with more than one value",
    "answer 20, arguments of wrong count",
    "answer 20, a number that is no sort",
    "answer 20, an argument outside its sort",
];

/// How many nodes a large body has at least.
const LARGE: usize = 65;

/// What is asked beside the case: a function and the area for its steps, and the seed of all lists and arguments.
#[derive(Clone)]
pub struct Asked {
    pub function: u64,
    pub area: Vec<u64>,
    pub seed: u64,
}

/// How often each kind came out, or what is wrong.
pub type Counted = Result<[u64; KINDS], String>;

impl Asked {
    /// What is asked, by a random source.
    pub fn new(random: &mut Random) -> Asked {
        let any = random.number();
        let function = random.pick(&[0, 0, 0, 0, 1, 1, 2, 3, 7, 8, 1 << 32, u64::MAX, any]);
        let length = match random.percent(3) {
            true => random.pick(&[0, 1, STEP, STEPS_LENGTH - 1, STEPS_LENGTH + 1, 65_535]),
            false => STEPS_LENGTH,
        };
        Asked {
            function,
            area: vec![random.pick(&[0, 3, any]); length],
            seed: random.number(),
        }
    }
}

/// What comes out of the calls for a case, or what is wrong with those of the proved checker.
pub fn counted(library: &mut Library, trial: &Trial) -> io::Result<Counted> {
    let mut counts = [0; KINDS];
    let mut random = Random::new(trial.asked.seed);
    let listed = match steps_fault(library, trial, &mut counts)? {
        Ok(listed) => listed,
        Err(fault) => return Ok(Err(fault)),
    };
    if let Some(list) = listed {
        for _ in 0..RUNS {
            match valued(library, trial, &list, &mut random)? {
                Ok(found) => counts[6] += u64::from(found),
                Err(fault) => return Ok(Err(fault)),
            }
        }
    }
    let run = foreign(random.number());
    let fault = run_fault(library, &run)?;
    counts[kind(&run)] += 1;
    Ok(fault.map_or(Ok(counts), Err))
}

/// The list that both write for a body, where they do; or what is wrong: with the answer, the count or the area.
fn steps_fault(
    library: &mut Library,
    trial: &Trial,
    counts: &mut [u64; KINDS],
) -> io::Result<Result<Option<Vec<u64>>, String>> {
    let (case, asked) = (&trial.case, &trial.asked);
    let texts = [&case.script[..], &case.response];
    let (points, budget, function) = (&case.points, case.budget, asked.function);
    let (mut area, mut simple_area) = (asked.area.clone(), asked.area.clone());
    let proved = library.steps(texts, points, budget, function, &mut area)?;
    let [script, response] = texts;
    let (answer, count) =
        simple::steps::steps(script, response, points, budget, function, &mut simple_area);
    let answer = given(answer);
    if proved != (Stepped { answer, count }) {
        return Ok(Err(format!(
            "the steps of function {function}: {proved:?}, not {count} with {answer:?}"
        )));
    }
    if area != simple_area {
        let fault = format!("the area of the steps of function {function}");
        return Ok(Err(fault));
    }
    let lacking = || number_lacking(script, function);
    counts[match answer.number {
        0 => 0,
        17 => 3,
        18 if lacking() => 4,
        18 => 5,
        _ => 2,
    }] += 1;
    counts[1] += u64::from(count >= LARGE);
    let list = (answer.number == 0).then(|| area[..STEP * count].to_vec());
    Ok(Ok(list))
}

/// Whether a sound script has no function of a number.
fn number_lacking(script: &[u8], function: u64) -> bool {
    let script = script::read(script).expect("a sound script after 18");
    function >= script.synthesized.len() as u64
}

/// Whether the proved checker finds the value of a run of a body's list on random arguments in a constraint; or what is wrong with the run: the value is another one
/// than the simple runner's, or than that.
fn valued(
    library: &mut Library,
    trial: &Trial,
    list: &[u64],
    random: &mut Random,
) -> io::Result<Result<bool, String>> {
    let script = script::read(&trial.case.script).expect("a sound script after 0");
    let function = &script.synthesized[trial.asked.function as usize];
    let arguments = function.arguments.iter();
    let arguments = arguments.map(|one| Value::new(one.sort, value(random, one.sort)));
    let arguments: Vec<Value> = arguments.collect();
    let run = Run {
        sorts: arguments.iter().map(|one| width(one.sort())).collect(),
        arguments: arguments.iter().map(|one| one.number()).collect(),
        steps: list.to_vec(),
    };
    if let Some(fault) = run_fault(library, &run)? {
        return Ok(Err(fault));
    }
    match simple::steps::run(&run.sorts, &run.arguments, &run.steps) {
        Ok(value) if value.sort() == function.sort => {
            found(library, trial, function, &arguments, value)
        }
        other => Ok(Err(format!("the list of a body ran to {other:?}: {run:?}"))),
    }
}

/// Whether the proved checker finds a value: it does not where the constraint is past a limit of the script. Or what is wrong: the constraint that the function has
/// this value is not true, or that it has another one is not false.
fn found(
    library: &mut Library,
    trial: &Trial,
    function: &Synthesized,
    arguments: &[Value],
    value: Value,
) -> io::Result<Result<bool, String>> {
    let case = &trial.case;
    let other = Value::new(value.sort(), value.number() ^ 1);
    for (value, expected) in [(value, 0), (other, 14)] {
        let script = with_equation(&case.script, function, arguments, value);
        if matches!(simple::read(&script, &case.response).number, 1 | 4) {
            return Ok(Ok(false));
        }
        let mut area = vec![0; AREA_LENGTH];
        let answer = library.check(&script, &case.response, &[], u64::MAX, &mut area)?;
        if answer.number != expected {
            let script = script.escape_ascii();
            return Ok(Err(format!("{answer:?}, not {expected}, to {script}")));
        }
    }
    Ok(Ok(true))
}

/// A script without its variables, assumptions and constraints, and with the constraint that a function has a value at arguments.
fn with_equation(
    script: &[u8],
    function: &Synthesized,
    arguments: &[Value],
    value: Value,
) -> Vec<u8> {
    let words = words::read(script, script::MOST_WORDS).expect("sound words");
    let mut text = Vec::new();
    for command in trees(words) {
        let head = command.items().and_then(<[Tree]>::first);
        let kept = ["set-logic", "set-feature", "define-fun", "synth-fun"];
        if head
            .and_then(Tree::symbol)
            .is_some_and(|head| kept.contains(&head))
        {
            text.extend(&script[command.start()..command.end()]);
        }
    }
    let name = &function.name;
    let operands: String = arguments
        .iter()
        .map(|one| format!(" {}", literal(*one)))
        .collect();
    let applied = match operands.is_empty() {
        true => name.clone(),
        false => format!("({name}{operands})"),
    };
    let value = literal(value);
    text.extend(format!("(constraint (= {applied} {value}))(check-synth)").bytes());
    text
}

/// A value as a literal.
fn literal(value: Value) -> String {
    match value {
        Value::Bool(truth) => truth.to_string(),
        Value::Bits { width, bits } => format!("#b{bits:0width$b}", width = width as usize),
    }
}

/// What is wrong with a run, if anything.
fn run_fault(library: &mut Library, run: &Run) -> io::Result<Option<String>> {
    let proved = library.run(&run.sorts, &run.arguments, &run.steps)?;
    let (number, place, value, sort) = match ran(run) {
        Ok(value) => (0, 0, value.number(), width(value.sort())),
        Err(refusal) => (refusal.number, refusal.place, 0, 0),
    };
    let answer = Answer {
        number,
        text: 3,
        place,
        ..Answer::default()
    };
    let simple = Ran {
        answer,
        value,
        sort,
    };
    let differ = proved != simple;
    Ok(differ.then(|| format!("the run of {run:?}: {proved:?}, not {simple:?}")))
}

/// What the simple runner makes of a run.
fn ran(run: &Run) -> Result<Value, Refusal> {
    simple::steps::run(&run.sorts, &run.arguments, &run.steps)
}

/// Of which kind a run of a foreign list is.
fn kind(run: &Run) -> usize {
    match ran(run).map_err(|refusal| refusal.cause) {
        Ok(_) => 7,
        Err(Cause::CutShort) => 8,
        Err(Cause::Malformed) => 9,
        Err(Cause::NoArgument) => 10,
        Err(Cause::NoConstant) => 11,
        Err(Cause::NoOperator) => 12,
        Err(Cause::Operands) => 13,
        Err(Cause::TooFew(_)) => 14,
        Err(Cause::WronglySorted(_)) => 15,
        Err(Cause::Full) => 16,
        Err(Cause::End(0)) => 17,
        Err(Cause::End(_)) => 18,
        Err(Cause::Count) => 19,
        Err(Cause::NoSort) => 20,
        Err(Cause::Range) => 21,
    }
}
