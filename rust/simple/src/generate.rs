//! Random cases from a seed, for tests that compare two checkers: sound ones, such whose bodies have many derivations, mutations of them, cases about the limits,
//! and noise; and lists of steps, and evidence files.

mod damaged;
mod draft;
mod foreign;
mod mutate;
mod noise;
pub mod random;
mod sized;
mod spaces;
mod tangled;

use crate::eval::{assumption_costs, constraint_costs, false_numbers, Functions};
use crate::{
    check, response, script, words, AREA_LENGTH, FIRST_ASSUMPTION, MOST_RESPONSE_BYTES,
    MOST_SCRIPT_BYTES,
};
pub use damaged::{damaged, evidence};
pub use draft::value;
use draft::{draft, tower, Draft};
pub use foreign::{foreign, Run};
use random::Random;

/// The units that an evaluation may take, whatever the budget of a case.
const MOST_UNITS: u64 = 20_000;

/// What a checker takes, the lent area apart.
#[derive(Clone, Debug, PartialEq, Eq)]
pub struct Case {
    pub script: Vec<u8>,
    pub response: Vec<u8>,
    pub points: Vec<u64>,
    pub budget: u64,
}

/// A case with a sound script and a response derived from its grammars: its answer is 0, 14 or 15.
pub fn valid(seed: u64) -> Case {
    let mut random = Random::new(seed);
    loop {
        let draft = match random.percent(3) {
            true => tower(&mut random),
            false => {
                let draft = draft(&mut random, true);
                settled(&mut random, draft)
            }
        };
        let mut case = rendered(&mut random, draft);
        if within_limits(&case) {
            case.budget = budget(&mut random, &case);
            return case;
        }
    }
}

/// A sound case whose bodies have many derivations: its answer is 0.
pub fn tangled(seed: u64) -> Case {
    let mut random = Random::new(seed.rotate_left(48));
    let draft = tangled::tangled(&mut random);
    rendered(&mut random, draft)
}

/// A case made from a sound one by one to three mutations, or with bodies that need not be derived.
pub fn mutated(seed: u64) -> Case {
    let mut random = Random::new(!seed);
    let estranged = random.percent(22);
    let mut draft = match random.percent(2) {
        true => tower(&mut random),
        false => draft(&mut random, !estranged),
    };
    let in_bytes = random.percent(10);
    if !in_bytes && !estranged {
        let count = random.pick(&[1, 1, 1, 1, 2, 3]);
        for _ in 0..count {
            mutate::mutate(&mut random, &mut draft);
        }
    }
    let mut case = rendered(&mut random, draft);
    if in_bytes {
        match random.percent(70) {
            true => mutate::mutate_bytes(&mut random, &mut case.script),
            false => mutate::mutate_bytes(&mut random, &mut case.response),
        }
    }
    case.budget = budget(&mut random, &case);
    case
}

/// A case made from a sound one by several mutations within one command, so that faults of several numbers meet in it.
pub fn crowded(seed: u64) -> Case {
    let mut random = Random::new(seed.rotate_left(32));
    let mut draft = draft(&mut random, true);
    mutate::crowd(&mut random, &mut draft);
    let mut case = rendered(&mut random, draft);
    case.budget = budget(&mut random, &case);
    case
}

/// A case about one or two limits.
pub fn sized(seed: u64) -> Case {
    let mut random = Random::new(!seed.rotate_left(32));
    let made = sized::sized(&mut random);
    let mut case = Case {
        script: made.script,
        response: made.response,
        points: made.points,
        budget: 0,
    };
    case.budget = budget(&mut random, &case);
    case
}

/// A case whose script, response or both are noise.
pub fn noise(seed: u64) -> Case {
    let mut random = Random::new(seed.rotate_left(16));
    let mut case = valid(random.number());
    match random.below(4) {
        0 => case.script = noise::noise(&mut random),
        1 => case.response = noise::noise(&mut random),
        2 => {
            case.script = noise::framed(&mut random);
            case.response = noise::RESPONSE.to_vec();
        }
        _ => {
            case.script = noise::framed(&mut random);
            case.response = noise::noise(&mut random);
        }
    }
    case.budget = budget(&mut random, &case);
    case
}

/// Whether both texts are within the limits of bytes, words and nesting.
fn within_limits(case: &Case) -> bool {
    case.script.len() <= MOST_SCRIPT_BYTES
        && case.response.len() <= MOST_RESPONSE_BYTES
        && words::read(&case.script, script::MOST_WORDS).is_ok()
        && words::read(&case.response, response::MOST_WORDS).is_ok()
}

/// A draft with each constraint negated that is false at a point, mostly the first one, so that later ones are evaluated too, and
/// mostly each assumption too; what terms mean then decides the answer.
fn settled(random: &mut Random, mut draft: Draft) -> Draft {
    let text = |words: &[String]| words.join(" ").into_bytes();
    let Ok(script) = script::read(&text(&draft.script)) else {
        return draft;
    };
    let Ok(bodies) = response::read(&text(&draft.response), &script) else {
        return draft;
    };
    let point = random.pick(&[0, 0, 0, 1, 2]);
    let mut numbers = false_numbers(&script, &bodies, &draft.points, point, MOST_UNITS);
    if random.percent(25) {
        numbers.retain(|&number| number < FIRST_ASSUMPTION);
    }
    for number in numbers {
        mutate::negate(&mut draft.script, number);
    }
    draft
}

/// The texts of a draft, the budget still to be found.
fn rendered(random: &mut Random, draft: Draft) -> Case {
    Case {
        script: text(random, &draft.script),
        response: text(random, &draft.response),
        points: draft.points,
        budget: 0,
    }
}

/// The words with white space and comments between them and behind the last one.
fn text(random: &mut Random, words: &[String]) -> Vec<u8> {
    let spaced = random.percent(50);
    let mut text = Vec::new();
    let mut apart = true;
    for word in words {
        let bracket = word == "(" || word == ")";
        if spaced && random.percent(12) {
            text.extend(spaces::gap(random));
        } else if !apart && !bracket {
            text.push(b' ');
        }
        text.extend(word.as_bytes());
        apart = bracket;
    }
    text.extend(spaces::ending(random));
    text
}

/// A budget about what the case costs; evaluation ends within `MOST_UNITS` whatever it is.
fn budget(random: &mut Random, case: &Case) -> u64 {
    let mut area = vec![0; AREA_LENGTH];
    let (script, response) = (&case.script, &case.response);
    let answer = check(script, response, &case.points, MOST_UNITS, &mut area);
    match answer.number {
        0 | 14 => match random.below(10) {
            0 => random.number() % (answer.units + 1),
            1 => answer.units.saturating_sub(1),
            2 => answer.units,
            3 => answer.units + 1,
            _ => u64::MAX,
        },
        15 => {
            let most = most_of_same_end(case, answer.units, answer.second as usize);
            match random.below(3) {
                0 => most,
                1 => random.number() % MOST_UNITS,
                _ => random.number() & most,
            }
        }
        _ => random.number(),
    }
}

/// The largest budget that still isn't enough for the constraint or assumption of a number once so many units are spent.
fn most_of_same_end(case: &Case, spent: u64, number: usize) -> u64 {
    let script = script::read(&case.script).expect("a sound script");
    let bodies = response::read(&case.response, &script).expect("a sound response");
    let functions = Functions::new(&script, &bodies);
    let cost = match number.checked_sub(FIRST_ASSUMPTION) {
        None => constraint_costs(&script, &functions)[number],
        Some(index) => assumption_costs(&script, &functions)[index],
    };
    let most = u128::from(spent).saturating_add(cost) - 1;
    u64::try_from(most).unwrap_or(u64::MAX)
}
