//! An SMT solver that is installed, asked for a point at which a constraint is false. What it says is its claim; a point that it gives goes to the checker.

use crate::failure::{said, Failure};
use crate::place::shown;
use simple::eval::literal_value;
use simple::grammar::Sorted;
use simple::tree::{trees, Tree};
use simple::words;
use std::path::PathBuf;
use std::process::{Command, Stdio};

/// The solvers that are looked for where none is named.
const SOLVERS: [&str; 2] = ["z3", "cvc5"];

/// What a solver says.
#[derive(Clone, Debug, PartialEq, Eq)]
pub struct Claim {
    /// Its name and version.
    pub solver: String,
    /// `sat`, `unsat`, or another word.
    pub word: String,
    /// The point that it gives with `sat`.
    pub point: Option<Vec<u64>>,
}

/// A file that is removed at last.
struct Removed(PathBuf);

impl Drop for Removed {
    /// Removes the file.
    fn drop(&mut self) {
        let _ = std::fs::remove_file(&self.0);
    }
}

/// Asks a solver, by the command that is given or else the first that is installed; the name of a file with the question is its last argument.
pub fn ask(command: Option<&str>, question: &str, variables: &[Sorted]) -> Result<Claim, Failure> {
    let command = match command {
        Some(command) => command.to_string(),
        None => installed()?,
    };
    let mut words = command.split_ascii_whitespace();
    let program = words.next().unwrap_or_default();
    let failed = |error| Failure(format!("cannot run {program}: {}", said(&error)));
    let file = std::env::temp_dir().join(format!("sverdhyll-{}.smt2", std::process::id()));
    let file = Removed(file);
    std::fs::write(&file.0, question)?;
    let mut asked = Command::new(program);
    asked.args(words).arg(&file.0).stdin(Stdio::null());
    let output = asked.stderr(Stdio::null()).output().map_err(failed)?;
    let text = String::from_utf8_lossy(&output.stdout);
    let word = text.split_ascii_whitespace().next().unwrap_or("nothing");
    let word = shown(&word.as_bytes()[..word.len().min(40)]);
    Ok(Claim {
        solver: version(program).unwrap_or_else(|| program.to_string()),
        point: (word == "sat").then(|| point(&text, variables)).flatten(),
        word,
    })
}

/// The first of the solvers that is installed.
fn installed() -> Result<String, Failure> {
    let found = SOLVERS.into_iter().find(|solver| version(solver).is_some());
    let found = found.ok_or_else(|| Failure("no SMT solver is installed: z3 and cvc5 are looked for, --refute=COMMAND names another".to_string()));
    found.map(str::to_string)
}

/// The line by which a solver says its name and version.
fn version(program: &str) -> Option<String> {
    let mut asked = Command::new(program);
    asked.arg("--version").stdin(Stdio::null());
    let output = asked.stderr(Stdio::null()).output().ok()?;
    let text = String::from_utf8_lossy(&output.stdout).into_owned();
    let line = text.lines().next()?.replace(char::is_control, "");
    let line = line.trim_start_matches("This is ").to_string();
    (!line.is_empty()).then_some(line)
}

/// The point of a model: `sat`, then a list of names with their values, in the order of the variables.
fn point(text: &str, variables: &[Sorted]) -> Option<Vec<u64>> {
    let quoted = text.replace(" of the script|", "").replace('|', "");
    let words = words::read(quoted.as_bytes(), usize::MAX).ok()?;
    let trees = trees(words);
    let pairs = trees.get(1)?.items()?;
    if pairs.len() != variables.len() {
        return None;
    }
    let number = |(pair, variable): (&Tree, &Sorted)| {
        let [_, value] = pair.items()? else {
            return None;
        };
        let number = literal_value(value)?.number();
        (number <= variable.sort.greatest()).then_some(number)
    };
    pairs.iter().zip(variables).map(number).collect()
}

#[cfg(test)]
mod tests {
    use super::*;
    use simple::operators::Sort;

    /// Variables of sorts.
    fn variables(sorts: &[Sort]) -> Vec<Sorted> {
        let named = |&sort| Sorted {
            name: "x".to_string(),
            place: 0,
            sort,
        };
        sorts.iter().map(named).collect()
    }

    #[test]
    fn points_of_models() {
        let sorts = [Sort::BitVec(32), Sort::Bool, Sort::BitVec(4)];
        let text = "sat\n((x #x0000000a)\n (|as of the script| true) (y (_ bv7 4)))\n";
        assert_eq!(point(text, &variables(&sorts)), Some(vec![10, 1, 7]));
        assert_eq!(point("sat\n((x #x0a))", &variables(&sorts)), None);
        assert_eq!(
            point("sat\n((x #xff))", &variables(&[Sort::BitVec(4)])),
            None
        );
        assert_eq!(point("sat\n(error \"no\")", &variables(&sorts)), None);
    }

    #[test]
    fn a_command_that_cannot_be_run() {
        let claim = ask(Some("no-such-solver -x"), "", &[]);
        assert_eq!(
            claim,
            Err(Failure(
                "cannot run no-such-solver: No such file or directory".to_string()
            ))
        );
        let claim = ask(Some("echo unsat"), "", &[]).expect("a claim");
        assert_eq!((claim.word.as_str(), claim.point), ("unsat", None));
    }
}
