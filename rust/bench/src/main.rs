//! How long the proved checker takes, held against the simple one, and how the time grows with the size.
//!
//! Only on x86-64 do both run alike; elsewhere the proved one runs under an emulator, and only ratios of its own times are printed.

mod inputs;

use inputs::{
    applications, assumptions, blocks, constraints, longer, typical, unknown, Input, BLOCK_WORDS,
    MOST_BLOCKS, MOST_POINTS,
};
use std::io;
use std::process::ExitCode;
use std::slice;
use std::time::{Duration, Instant};
use sverdhyll::{Library, AREA_LENGTH};

/// How often each is run; the shortest time counts.
const RUNS: usize = 200;
/// How long the runs of one input may take together once there are ten of them.
const LONGEST: Duration = Duration::from_secs(4);
/// The last operator of the table, and an earlier one of as many letters and of the same sort rule.
const OPERATORS: [&str; 2] = ["bvuge", "bvult"];
/// How many times as long as the simple checker the proved one may take for the largest script: "at most four times", by request E10.
const REQUESTED: f64 = 4.0;
/// What is held instead of that, for the largest script, for a typical one, for one of 4 KiB and for evaluation.
const GOALS: [f64; 4] = [0.5, 0.4, 0.4, 0.3];
/// How many times as long as with the earlier operator a script may take with the last one.
const MOST_APART: f64 = 1.05;
/// A literal, an operator's name and another name, of which a further word is read.
const WORDS: [&str; 3] = ["#b1", "bvuge", "input"];
/// How often a word is read, and how often to see what a further one takes.
const TIMES: [usize; 2] = [1_000, 4_000];
/// Whether both checkers run alike.
const ALIKE: bool = cfg!(target_arch = "x86_64");

/// The shortest times of the two checkers.
#[derive(Clone, Copy)]
struct Times {
    proved: Duration,
    simple: Duration,
}

impl Times {
    /// Longer than any.
    const LONGEST: Times = Times {
        proved: Duration::MAX,
        simple: Duration::MAX,
    };

    /// How many times as long the proved checker takes.
    fn ratio(&self) -> f64 {
        self.proved.as_secs_f64() / self.simple.as_secs_f64()
    }

    /// What these take beyond others.
    fn beyond(&self, others: &Times) -> Times {
        Times {
            proved: self.proved.saturating_sub(others.proved),
            simple: self.simple.saturating_sub(others.simple),
        }
    }

    /// The shorter of each.
    fn least(&self, others: &Times) -> Times {
        Times {
            proved: self.proved.min(others.proved),
            simple: self.simple.min(others.simple),
        }
    }

    /// What each is of the same in others.
    fn parts(&self, others: &Times) -> (f64, f64) {
        let part = |one: Duration, other: Duration| one.as_secs_f64() / other.as_secs_f64();
        (
            part(self.proved, others.proved),
            part(self.simple, others.simple),
        )
    }
}

/// The times of one run. Both are given the same bytes and an area with the same entries.
fn once(library: &mut Library, input: &Input) -> io::Result<Times> {
    let (script, response, points) = (&input.script, &input.response, &input.points);
    let mut area = vec![7; AREA_LENGTH];
    let start = Instant::now();
    let proved = library.check(script, response, points, u64::MAX, &mut area)?;
    let proved_time = start.elapsed();
    area.fill(7);
    let start = Instant::now();
    let simple = simple::check(script, response, points, u64::MAX, &mut area);
    let simple_time = start.elapsed();
    let numbers = (proved.number, simple.number);
    assert_eq!(numbers, (input.number, input.number), "the answer");
    assert_eq!(proved.units, simple.units, "the same units");
    Ok(Times {
        proved: proved_time,
        simple: simple_time,
    })
}

/// The shortest times for inputs, which are run in turn.
fn in_turn(library: &mut Library, inputs: &[Input]) -> io::Result<Vec<Times>> {
    let mut shortest = vec![Times::LONGEST; inputs.len()];
    let begun = Instant::now();
    for run in 0..RUNS {
        if run >= 10 && begun.elapsed() > LONGEST * inputs.len() as u32 {
            break;
        }
        for (times, input) in shortest.iter_mut().zip(inputs) {
            *times = times.least(&once(library, input)?);
        }
    }
    Ok(shortest)
}

/// The shortest times for an input.
fn measured(library: &mut Library, input: &Input) -> io::Result<Times> {
    Ok(in_turn(library, slice::from_ref(input))?[0])
}

/// Prints a ratio and its goal; says whether it is met.
fn judge(name: &str, times: &Times, goal: f64) -> bool {
    let ratio = times.ratio();
    let (proved, simple) = (times.proved.as_micros(), times.simple.as_micros());
    println!("{name}: {ratio:.2} (goal: at most {goal}; {proved} and {simple} microseconds)");
    ratio <= goal
}

/// Prints a row of ratios; that of the simple checker only where both run alike.
fn row(name: impl std::fmt::Display, (proved, simple): (f64, f64)) {
    match ALIKE {
        true => println!("{name:>6} {proved:6.2} {simple:6.2}"),
        false => println!("{name:>6} {proved:6.2}"),
    }
}

/// Prints what stands above rows of ratios.
fn heading(name: &str) {
    println!("{name}, proved{}", if ALIKE { " and simple" } else { "" });
}

/// Prints the times at growing sizes, each as its ratio to that at half the size.
fn growth(name: &str, rows: &[(usize, Times)]) {
    heading(&format!("{name}: ratio to half of them"));
    for pair in rows.windows(2) {
        let [(_, half), (size, times)] = pair else {
            continue;
        };
        row(size, times.parts(half));
    }
}

/// Prints how long a script takes with the last operator, to the same with an earlier one; says whether they take the same time.
fn operators(library: &mut Library) -> io::Result<bool> {
    let times = in_turn(library, &OPERATORS.map(applications))?;
    let (proved, _) = times[0].parts(&times[1]);
    let [last, earlier] = OPERATORS;
    println!("a script with {last} for {earlier}: {proved:.2} (goal: at most {MOST_APART})");
    Ok(proved <= MOST_APART)
}

/// Prints what a further word takes that is read, to a literal.
fn further_words(library: &mut Library) -> io::Result<()> {
    let inputs = TIMES.map(|times| WORDS.map(|word| unknown(word, times)));
    let times = in_turn(
        library,
        &inputs.into_iter().flatten().collect::<Vec<Input>>(),
    )?;
    let (few, many) = times.split_at(WORDS.len());
    let further = |word: usize| many[word].beyond(&few[word]);
    heading(&format!("a further word: ratio to a further {}", WORDS[0]));
    for (word, name) in WORDS.iter().enumerate().skip(1) {
        row(name, further(word).parts(&further(0)));
    }
    Ok(())
}

/// The times for scripts of growing size, the last one the largest.
fn scripts(library: &mut Library) -> io::Result<Vec<(usize, Times)>> {
    let row = |count| Ok((BLOCK_WORDS * count, measured(library, &blocks(count))?));
    [1, 2, 4, MOST_BLOCKS].into_iter().map(row).collect()
}

/// The times that evaluation takes at more and more points, the last time at the most allowed.
fn evaluations(library: &mut Library) -> io::Result<Vec<(usize, Times)>> {
    let unevaluated = measured(library, &constraints(0))?;
    let row = |count| {
        let times = measured(library, &constraints(count))?;
        Ok((count, times.beyond(&unevaluated)))
    };
    let counts = [MOST_POINTS / 4, MOST_POINTS / 2, MOST_POINTS];
    counts.into_iter().map(row).collect()
}

/// The time that evaluation takes where there are assumptions, at the most points allowed.
fn assumed(library: &mut Library) -> io::Result<Times> {
    let unevaluated = measured(library, &assumptions(0))?;
    Ok(measured(library, &assumptions(MOST_POINTS))?.beyond(&unevaluated))
}

/// Measures all; says whether every goal is met.
fn run() -> io::Result<bool> {
    let mut library = Library::open()?;
    let scripts = scripts(&mut library)?;
    let evaluations = evaluations(&mut library)?;
    growth("words of a script", &scripts);
    growth("points for 64 constraints", &evaluations);
    further_words(&mut library)?;
    let found_alike = operators(&mut library)?;
    if !ALIKE {
        println!(
            "no ratios: the proved checker runs under an emulator here, the simple one does not"
        );
        return Ok(true);
    }
    println!("time of the proved checker, ratio to that of the simple one; request E10 asks for at most {REQUESTED} of the largest script");
    let [largest, common, long, evaluation] = GOALS;
    let met = [
        found_alike,
        judge("largest script", &scripts[scripts.len() - 1].1, largest),
        judge(
            "typical script",
            &measured(&mut library, &typical())?,
            common,
        ),
        judge(
            "a script of 4 KiB",
            &measured(&mut library, &longer())?,
            long,
        ),
        judge(
            "64 constraints at 1,024 points",
            &evaluations[evaluations.len() - 1].1,
            evaluation,
        ),
        judge(
            "32 assumptions and 64 constraints at 1,024 points",
            &assumed(&mut library)?,
            evaluation,
        ),
    ];
    Ok(met.into_iter().all(|met| met))
}

fn main() -> ExitCode {
    match run() {
        Ok(true) => ExitCode::SUCCESS,
        Ok(false) => ExitCode::FAILURE,
        Err(error) => {
            eprintln!("{error}");
            ExitCode::from(2)
        }
    }
}
