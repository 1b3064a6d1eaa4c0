//! The one digit: the command is asked, with default options, about every change of one digit of one constant in the bodies of the accepted pairs.

use crate::arguments::BUDGET;
use crate::pieces::pieces;
use crate::points::{Origin, Points, Wanted};
use crate::refute::ask;
use crate::run::{run, Given, Run};
use crate::smt::question;
use crate::source::{Source, Text};
use simple::eval::Value;
use simple::tree::trees;
use simple::words;
use std::collections::HashSet;
use std::ffi::OsStr;
use std::fs;
use std::ops::Range;
use std::path::{Path, PathBuf};
use sverdhyll::Library;

/// The root of the project.
const ROOT: &str = concat!(env!("CARGO_MANIFEST_DIR"), "/../..");
/// The folders of pairs, separated by colons, where they are not the project's own.
const FOLDERS: &str = "SVERDHYLL_PAIRS";
/// The changes that leave a response right, with the solver whose claim that is.
const RIGHT: &str = "tests/digits.txt";

/// A response with one digit changed: the text, and how the list of right ones names it.
struct Mutant {
    text: Vec<u8>,
    name: String,
}

/// What became of the mutants of a response.
#[derive(Debug, Default)]
struct Tally {
    wrong: usize,
    right: usize,
    failures: Vec<String>,
}

/// The scripts of a folder with their responses, as paths from the root.
fn pairs(folder: &Path) -> Vec<(PathBuf, PathBuf)> {
    let files = fs::read_dir(folder).expect("a folder");
    let mut files: Vec<PathBuf> = files.map(|one| one.expect("a file").path()).collect();
    files.sort();
    let ends = |path: &&PathBuf, end: &str| path.extension() == Some(OsStr::new(end));
    let responses = files
        .iter()
        .filter(|path| ends(path, "response") || ends(path, "out"));
    let script = |response: &PathBuf| {
        let name = response.file_name()?.to_str()?;
        let script = folder.join(format!("{}.sy", name.split('.').next()?));
        let stored = ends(&response, "out") && response.with_extension("response").exists();
        (!stored).then_some((script, response.clone()))
    };
    responses.filter_map(script).collect()
}

/// The constants of a text: where each literal of bits stands.
fn constants(text: &[u8]) -> Vec<Range<usize>> {
    let trees = trees(words::read(text, usize::MAX).unwrap_or_default());
    let pieces = trees.iter().flat_map(pieces);
    let constants = pieces.filter(|piece| matches!(piece.value, Some(Value::Bits { .. })));
    constants.map(|piece| piece.at).collect()
}

/// Where the digits of a constant stand, and those that it may have there.
fn digits(text: &[u8], constant: &Range<usize>) -> (Range<usize>, &'static str) {
    let (mark, digits) = match &text[constant.start..constant.start + 2] {
        b"#x" => ("#x", "0123456789abcdef"),
        b"#b" => ("#b", "01"),
        _ => ("bv", "0123456789"),
    };
    let written = &text[constant.clone()];
    let mark = written.windows(2).position(|two| two == mark.as_bytes());
    let start = constant.start + mark.expect("a mark before the digits") + 2;
    let length = text[start..]
        .iter()
        .take_while(|digit| digit.is_ascii_hexdigit());
    (start..start + length.count(), digits)
}

/// All changes of one digit of one constant of a response that leave it a constant.
fn mutants(response: &Path, text: &[u8]) -> Vec<Mutant> {
    let constants = constants(text);
    let changes = constants.iter().flat_map(|constant| {
        let (places, digits) = digits(text, constant);
        let changes = places.flat_map(|place| digits.bytes().map(move |digit| (place, digit)));
        changes.map(move |(place, digit)| (constant, place, digit))
    });
    let changes = changes.filter(|(_, place, digit)| !text[*place].eq_ignore_ascii_case(digit));
    let mutant = |(constant, place, digit): (&Range<usize>, usize, u8)| {
        let mut changed = text.to_vec();
        changed[place] = digit;
        let written = String::from_utf8_lossy(&changed[constant.clone()]);
        let name = format!("{} {} {written}", response.display(), constant.start);
        Mutant {
            name,
            text: changed,
        }
    };
    let mutants = changes.map(mutant);
    mutants
        .filter(|mutant| self::constants(&mutant.text) == constants)
        .collect()
}

#[test]
fn changes_leave_constants() {
    let of = |text: &str| {
        let mutants = mutants(Path::new("r"), text.as_bytes());
        mutants
            .into_iter()
            .map(|mutant| mutant.name)
            .collect::<Vec<String>>()
    };
    assert_eq!(of("(f #b10 bv7)"), ["r 3 #b00", "r 3 #b11"]);
    assert_eq!(of("(f #xa)").len(), 15);
    let decimals = of("((_ bv12 4))");
    assert_eq!(
        decimals,
        [
            "r 1 (_ bv10 4)",
            "r 1 (_ bv11 4)",
            "r 1 (_ bv13 4)",
            "r 1 (_ bv14 4)",
            "r 1 (_ bv15 4)"
        ]
    );
}

/// What the command finds of a script and a response with default options.
fn checked(library: &mut Library, script: &Text, response: &[u8]) -> (Given, Run) {
    let read = simple::script::read(&script.bytes).expect("a sound script");
    let mut given = Given {
        bodies: simple::response::read(response, &read).unwrap_or_default(),
        script: script.clone(),
        response: Text {
            name: String::new(),
            bytes: response.to_vec(),
            length: response.len() as u64,
        },
        points: Points::none(),
        budget: BUDGET,
        read,
    };
    let run = run(library, &mut given, &Wanted::Fitting).expect("a run");
    (given, run)
}

impl Tally {
    /// Takes in what the command finds of a mutant.
    fn add(&mut self, mutant: &Mutant, given: &Given, run: &Run, right: &HashSet<String>) {
        let settled = matches!(given.points.origin, Origin::All | Origin::None);
        match run.answer.number {
            13 | 14 => self.wrong += 1,
            0 if settled => self.right += 1,
            0 => self.add_accepted(mutant, given, right),
            other => self
                .failures
                .push(format!("answer {other}: {}", mutant.name)),
        }
    }

    /// Takes in a mutant that is accepted at some of the points: it must be right at all, by the list, and by z3 where it is installed.
    fn add_accepted(&mut self, mutant: &Mutant, given: &Given, right: &HashSet<String>) {
        let claim = ask(
            Some("z3 -T:60"),
            &question(&given.read, &given.bodies),
            &given.read.variables,
        );
        let word = claim.map_or("not installed".to_string(), |claim| claim.word);
        let own = Path::new(&mutant.name).is_relative();
        match (right.contains(&mutant.name) || !own, word.as_str()) {
            (true, "unsat") => self.right += 1,
            (true, "timeout" | "not installed") if own => self.right += 1,
            (_, "sat") => self
                .failures
                .push(format!("wrong, but accepted: {}", mutant.name)),
            (_, word) => self.failures.push(format!(
                "accepted, and not in {RIGHT} (z3: {word}): {}",
                mutant.name
            )),
        }
    }
}

#[test]
#[ignore = "it takes half a minute; tests/digits runs it"]
fn every_wrong_digit_is_found() {
    let own = format!("{ROOT}/tests/real:{ROOT}/examples");
    let folders = std::env::var(FOLDERS).unwrap_or(own);
    let root = fs::canonicalize(ROOT).expect("the root");
    let list = fs::read_to_string(root.join(RIGHT)).expect("the list");
    let right: HashSet<String> = list.lines().map(str::to_string).collect();
    let mut library = Library::open().expect("the checker");
    let folders = folders
        .split(':')
        .map(|folder| fs::canonicalize(folder).expect("a folder"));
    let mut failures = Vec::new();
    for (script, response) in folders.flat_map(|folder| pairs(&folder)) {
        let name = response.strip_prefix(&root).unwrap_or(&response);
        let tally = tally(&mut library, &script, &response, name, &right);
        println!(
            "{}: {} wrong and found, {} right",
            name.display(),
            tally.wrong,
            tally.right
        );
        tally
            .failures
            .iter()
            .for_each(|failure| println!("{failure}"));
        failures.extend(tally.failures);
    }
    assert!(failures.is_empty(), "{}", failures.join("\n"));
}

/// What becomes of the mutants of a response, if it is accepted.
fn tally(
    library: &mut Library,
    script: &Path,
    response: &Path,
    name: &Path,
    right: &HashSet<String>,
) -> Tally {
    let script = Source::named(script.as_os_str())
        .read(1 << 20)
        .expect("a script");
    let text = fs::read(response).expect("a response");
    let mut tally = Tally::default();
    if simple::script::read(&script.bytes).is_err()
        || checked(library, &script, &text).1.answer.number != 0
    {
        return tally;
    }
    for mutant in mutants(name, &text) {
        let (given, run) = checked(library, &script, &mutant.text);
        tally.add(&mutant, &given, &run, right);
    }
    tally
}
