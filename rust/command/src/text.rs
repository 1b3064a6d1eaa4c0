//! The outcome for people.

use crate::answers::{counted, file, grouped, sentence, verdict};
use crate::derivation::Step;
use crate::evaluation::shown;
use crate::evidence::{Evidence, Stopped};
use crate::facts::{Derived, Facts, Judged, Located, Note};
use crate::holding;
use crate::listing::Listed;
use crate::refute::Claim;
use std::env;
use std::io::{self, IsTerminal, Write};
use sverdhyll::Position;

/// How many columns a line has room for: those of the terminal, where standard output is one and the variable COLUMNS says how many; else any number.
pub fn columns() -> usize {
    let said = env::var("COLUMNS")
        .ok()
        .and_then(|value| value.parse().ok());
    said.filter(|_| io::stdout().is_terminal())
        .unwrap_or(usize::MAX)
}

/// Writes the one line that says the answer: the file with the place, where there is one, then the verdict.
pub fn write_line(facts: &Facts, to: &mut impl Write) -> io::Result<()> {
    let answer = facts.answer;
    match &facts.located {
        Some(located) => write!(to, "{located}: ")?,
        None => write!(to, "{}: ", file(facts))?,
    }
    let verdict = verdict(answer.number).word();
    write!(
        to,
        "{verdict} (answer {}): {}",
        answer.number,
        sentence(facts)
    )?;
    if is_judged(facts) {
        write!(to, " ({} spent)", counted(answer.units, "unit"))?;
    }
    writeln!(to)
}

/// Writes all that there is to say; lines of a text have so many columns.
pub fn write(facts: &Facts, columns: usize, to: &mut impl Write) -> io::Result<()> {
    write_line(facts, to)?;
    if let Some(located) = &facts.located {
        write_source(located, columns, to)?;
    }
    if let Some(judged) = &facts.judged {
        write_judged(facts, judged, to)?;
    }
    for note in &facts.notes {
        write_note(note, columns, to)?;
    }
    if is_judged(facts) {
        writeln!(to, "points: {}", facts.given.points.origin)?;
        write_guards(facts, to)?;
        write_claim(facts, to)?;
    }
    if let Some(listed) = &facts.listed {
        return write_list(listed, to);
    }
    let evidence = facts.evidence.as_ref();
    if let Some(Evidence::Checked(held, _)) = evidence {
        holding::write(facts, held, to)?;
    }
    let whole = match evidence {
        Some(evidence) => matches!(evidence, Evidence::Checked(..)),
        None => facts.answer.number == 0,
    };
    for derived in &facts.derived {
        match whole {
            true => write_derivation(derived, facts.given.read.weights, to)?,
            false => write_rules(derived, facts.given.read.weights, to)?,
        }
    }
    match evidence {
        Some(Evidence::Written(None)) => writeln!(to, "no file is written"),
        Some(Evidence::Checked(_, Some(stopped))) => {
            write_stopped(stopped, facts.given.read.weights, to)
        }
        _ => Ok(()),
    }
}

/// Whether constraints were evaluated, or would have been at more points.
fn is_judged(facts: &Facts) -> bool {
    facts.evidence.is_none() && matches!(facts.answer.number, 0 | 14 | 15)
}

/// Writes how often the left side of each `=>` held, with a warning where it never did.
fn write_guards(facts: &Facts, to: &mut impl Write) -> io::Result<()> {
    let script = &facts.given.script;
    for (guard, position) in &facts.guards {
        write!(to, "{}: ", at(&script.name, *position))?;
        match guard.held {
            0 => writeln!(
                to,
                "warning: this left side of => held at no point: {}",
                guard.term
            )?,
            held => {
                let points = if held == 1 { "point" } else { "points" };
                let held = grouped(held);
                writeln!(
                    to,
                    "this left side of => held at {held} {points}: {}",
                    guard.term
                )?;
            }
        }
    }
    Ok(())
}

/// Writes what a solver claims that was asked for a point at which a constraint is false.
fn write_claim(facts: &Facts, to: &mut impl Write) -> io::Result<()> {
    let Some(Claim {
        solver,
        word,
        point,
    }) = &facts.claim
    else {
        return Ok(());
    };
    match (word.as_str(), point, facts.answer.number) {
        ("unsat", ..) => writeln!(to, "refute: {solver} claims that no point makes a constraint false (unsat): its claim, which is outside the proof"),
        ("sat", Some(_), 14) => writeln!(to, "refute: the point is from {solver}, the answer at it is the checker's"),
        ("sat", ..) => writeln!(to, "refute: {solver} claims that some point makes a constraint false (sat), but gives none that does"),
        _ => writeln!(to, "refute: {solver} gives no answer ({word})"),
    }
}

/// Writes a note, with the line of its place where it has one.
fn write_note(note: &Note, columns: usize, to: &mut impl Write) -> io::Result<()> {
    let Some(located) = &note.located else {
        return writeln!(to, "note: {}", note.message);
    };
    writeln!(to, "{located}: note: {}", note.message)?;
    write_source(located, columns, to)
}

/// A position in a file as `file:line:column`.
fn at(file: &str, position: Position) -> String {
    format!("{file}:{}:{}", position.line, position.column)
}

/// Writes the line of a place, and carets under its word.
pub fn write_source(located: &Located, columns: usize, to: &mut impl Write) -> io::Result<()> {
    let line = format!("{:>5} | ", located.place.position.line);
    let (source, carets) = located.place.within(columns.saturating_sub(line.len()));
    writeln!(to, "{line}{source}")?;
    writeln!(to, "{:>1$}{carets}", "| ", line.len())
}

/// Writes the constraint or assumption and the point of answer 14 or 15.
fn write_judged(facts: &Facts, judged: &Judged, to: &mut impl Write) -> io::Result<()> {
    let answer = facts.answer;
    writeln!(
        to,
        "{}: {}, counted from 0:",
        at(&facts.given.script.name, judged.position),
        judged.stated
    )?;
    writeln!(to, "  {}", judged.text)?;
    if !judged.point.is_empty() {
        writeln!(to, "at point {}, counted from 0:", answer.place)?;
    }
    for (name, value) in &judged.point {
        writeln!(to, "  {name} = {}", shown(*value, judged.signed))?;
    }
    let names = ["left", "right"];
    for (name, (side, value)) in names.iter().zip(judged.sides.iter().flatten()) {
        let value = shown(*value, judged.signed);
        writeln!(to, "{name} side:\n  {side} = {value}")?;
    }
    if answer.number == 15 {
        writeln!(to, "--budget gives a larger one")?;
    }
    Ok(())
}

/// The total weight of a derivation, where rules may have weights.
fn total(derived: &Derived, weights: bool) -> String {
    match weights {
        true => format!(" of weight {}", grouped(derived.weight)),
        false => String::new(),
    }
}

/// Writes a derivation step by step.
fn write_derivation(derived: &Derived, weights: bool, to: &mut impl Write) -> io::Result<()> {
    let steps = counted(derived.steps.len() as u64, "step");
    writeln!(
        to,
        "\n{}: derived from {} in {steps}{}, the leftmost non-terminal each time",
        derived.name,
        derived.start,
        total(derived, weights)
    )?;
    for (index, step) in derived.steps.iter().enumerate() {
        write_step(index + 1, step, weights, to)?;
    }
    Ok(())
}

/// Writes how far a list can be followed, and why not further.
fn write_stopped(stopped: &Stopped, weights: bool, to: &mut impl Write) -> io::Result<()> {
    let (Some((name, start)), Some(why)) = (&stopped.name, &stopped.why) else {
        return Ok(());
    };
    let count = stopped.steps.len();
    writeln!(
        to,
        "\n{name}: from {start}, the list can be followed for {}",
        counted(count as u64, "step")
    )?;
    for (index, step) in stopped.steps.iter().enumerate() {
        write_step(index + 1, step, weights, to)?;
    }
    writeln!(to, "{:>4}. {why}", count + 1)
}

/// Writes one step: rule, non-terminal, the rule's text and how the body has it, its weight, and below it the term so far.
fn write_step(count: usize, step: &Step, weights: bool, to: &mut impl Write) -> io::Result<()> {
    let Step {
        number,
        nonterminal,
        weight,
        rule,
        given,
        written,
        term,
    } = step;
    write!(to, "{count:>4}. rule {number:<3}  {nonterminal} -> {rule}")?;
    if let Some(given) = given {
        write!(to, ", here {given}")?;
    }
    if let Some(written) = written {
        write!(to, ", in the body {written}")?;
    }
    if weights {
        write!(to, ", weight {weight}")?;
    }
    writeln!(to, "\n      {term}")
}

/// Writes steps: the number of each, what it does, and its four numbers.
fn write_list(listed: &Listed, to: &mut impl Write) -> io::Result<()> {
    let lines = listed.lines();
    let steps = counted(lines.len() as u64, "step");
    let values = counted(listed.height(), "value");
    writeln!(
        to,
        "\n{}: {steps}, at most {values} on the stack",
        listed.name
    )?;
    let width = lines.iter().map(|(words, _)| words.len()).max();
    for (index, (words, numbers)) in lines.iter().enumerate() {
        let numbers = spaced(numbers);
        writeln!(to, "{index:>4}. {words:<0$}  {numbers}", width.unwrap_or(0))?;
    }
    Ok(())
}

/// Writes the numbers of steps alone, a step to a line.
pub fn write_numbers(listed: &Listed, to: &mut impl Write) -> io::Result<()> {
    let lines = listed.lines();
    lines
        .iter()
        .try_for_each(|(_, numbers)| writeln!(to, "{}", spaced(numbers)))
}

/// Numbers with single spaces.
pub fn spaced(numbers: &[impl ToString]) -> String {
    let numbers: Vec<String> = numbers.iter().map(ToString::to_string).collect();
    numbers.join(" ")
}

/// Writes the rule numbers of a derivation.
fn write_rules(derived: &Derived, weights: bool, to: &mut impl Write) -> io::Result<()> {
    let numbers: Vec<String> = derived
        .steps
        .iter()
        .map(|step| step.number.to_string())
        .collect();
    writeln!(
        to,
        "{}: derived by rules {}{}",
        derived.name,
        numbers.join(" "),
        total(derived, weights)
    )
}
