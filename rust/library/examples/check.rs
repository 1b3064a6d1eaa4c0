//! Checks a response against a script at no point: `check SCRIPT RESPONSE`.

use std::{env, fs, io};
use sverdhyll::{Library, Outcome, AREA_LENGTH, UNUSED};

/// Units that the evaluations may cost.
const BUDGET: u64 = 1_000_000;

/// Says the answer, and the rules of the first body's derivation.
fn main() -> io::Result<()> {
    let files: Vec<String> = env::args().skip(1).collect();
    let (script, response) = (fs::read(&files[0])?, fs::read(&files[1])?);
    let mut shown = vec![0; AREA_LENGTH];
    let answer = Library::open()?.check(&script, &response, &[], BUDGET, &mut shown)?;
    println!("{answer}");
    if let Outcome::Accepted { .. } = answer.outcome() {
        let rules: Vec<String> = shown
            .iter()
            .take_while(|rule| **rule != UNUSED)
            .map(u16::to_string)
            .collect();
        println!("rules: {}", rules.join(" "));
    }
    Ok(())
}
