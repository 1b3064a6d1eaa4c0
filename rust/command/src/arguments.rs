//! What the command is asked, by its arguments.

use crate::answers::grouped;
use crate::evidence::{Target, Which};
use crate::failure::Failure;
use crate::listing::Chosen;
use crate::points::{number, Wanted, SEED};
use crate::ran;
use crate::source::Source;
use std::ffi::{OsStr, OsString};

/// The budget where none is given: enough for any script whose functions do not call one another many times over, and spent in a short time.
pub const BUDGET: u64 = 1_000_000_000;
/// The word that asks for the question for an SMT solver.
const QUESTION: &str = "smt2";
/// The word that asks for the steps of a body.
const STEPS: &str = "steps";
/// The word that asks for the run of a list of steps.
const RUN: &str = "run";
/// The word that asks for an evidence file.
const EVIDENCE: &str = "evidence";
/// The word that asks for the check of an evidence file.
const AUDIT: &str = "audit";
/// At most so many points are made at random.
const MOST_RANDOM: u64 = 1 << 22;

/// What the command is to do.
#[derive(Clone, Debug, PartialEq, Eq)]
pub enum Asked {
    Help,
    Version,
    /// To say what the answer of this number means.
    Explain(u64),
    /// To check the shipped example.
    Example,
    Check(Request),
    /// To write the question that points cannot settle for an SMT solver.
    Question {
        script: Source,
        response: Source,
    },
    /// To write the steps of a body, once the response is accepted.
    Steps(Stepwise),
    /// To run a list of steps.
    Run(ran::Wanted),
    /// To write an evidence file.
    Evidence(Filing),
    /// To check an evidence file.
    Audit(Auditing),
}

/// An evidence file that is to be written.
#[derive(Clone, Debug, PartialEq, Eq)]
pub struct Filing {
    pub script: Source,
    pub response: Source,
    pub target: Target,
    pub form: Form,
}

/// An evidence file that is to be checked.
#[derive(Clone, Debug, PartialEq, Eq)]
pub struct Auditing {
    pub file: Source,
    /// The text that is wanted in the place of the outcome.
    pub text: Option<Which>,
    pub form: Form,
}

/// A check whose response, once it is accepted, gives the steps of a body.
#[derive(Clone, Debug, PartialEq, Eq)]
pub struct Stepwise {
    pub request: Request,
    pub function: Option<Chosen>,
    /// Whether the bare numbers are wanted.
    pub numbers: bool,
}

/// The SMT solver to ask: by the command that is given, or else one that is installed.
#[derive(Clone, Debug, PartialEq, Eq)]
pub struct Solver(pub Option<String>);

/// How the outcome is said.
#[derive(Clone, Copy, Debug, Default, PartialEq, Eq)]
pub enum Form {
    #[default]
    Full,
    Quiet,
    Json,
}

/// What is to be checked, and how the outcome is said.
#[derive(Clone, Debug, PartialEq, Eq)]
pub struct Request {
    pub script: Source,
    pub response: Source,
    pub points: Wanted,
    pub budget: u64,
    pub form: Form,
    /// Whether it counts as a failing that nothing was evaluated, or a left side of `=>` never held.
    pub strict: bool,
    /// The solver that is asked for a point at which a constraint is false.
    pub refute: Option<Solver>,
}

/// What the arguments have given so far.
#[derive(Default, PartialEq)]
struct Given {
    files: Vec<Source>,
    points: Option<Wanted>,
    budget: Option<u64>,
    json: bool,
    quiet: bool,
    strict: bool,
    refute: Option<Solver>,
    function: Option<Chosen>,
    numbers: bool,
    sorts: Option<Vec<u64>>,
    arguments: Option<Vec<u64>>,
    output: Option<Target>,
    text: Option<Which>,
}

/// What the arguments ask for.
pub fn parse(arguments: Vec<OsString>) -> Result<Asked, Failure> {
    if arguments.is_empty() {
        return Ok(Asked::Example);
    }
    let mut given = Given::default();
    let mut arguments = arguments.into_iter();
    let mut options = true;
    while let Some(argument) = arguments.next() {
        let text = argument.to_string_lossy();
        match text.as_ref() {
            "--help" | "-h" if options => return Ok(Asked::Help),
            "--version" if options => return Ok(Asked::Version),
            explain if options && explain.split('=').next() == Some("--explain") => {
                let value = value(&text, &mut arguments)?;
                return explained(&value).map(Asked::Explain);
            }
            "--" if options => options = false,
            option if options && option.len() > 1 && option.starts_with('-') => {
                given.option(&argument, &mut arguments)?
            }
            _ => given.files.push(Source::named(&argument)),
        }
    }
    given.asked()
}

impl Given {
    /// Takes in an option, with its value where it has one: `--name value` or `--name=value`.
    fn option(
        &mut self,
        option: &OsStr,
        rest: &mut impl Iterator<Item = OsString>,
    ) -> Result<(), Failure> {
        let text = option.to_string_lossy();
        let name = text.split('=').next().unwrap_or_default();
        match name {
            "--points" => once(&mut self.points, name, points(&value(&text, rest)?)?),
            "--budget" => once(&mut self.budget, name, budget(&value(&text, rest)?)?),
            "--json" if name == text => {
                self.json = true;
                Ok(())
            }
            "--quiet" if name == text => {
                self.quiet = true;
                Ok(())
            }
            "--strict" if name == text => {
                self.strict = true;
                Ok(())
            }
            "--refute" => once(&mut self.refute, name, solver(&text)?),
            "--function" => once(&mut self.function, name, function(&value(&text, rest)?)),
            "--numbers" if name == text => {
                self.numbers = true;
                Ok(())
            }
            "--sorts" => once(&mut self.sorts, name, list(name, &value(&text, rest)?)?),
            "--arguments" => once(&mut self.arguments, name, list(name, &value(&text, rest)?)?),
            "--output" | "-o" => once(&mut self.output, "--output", target(&value(&text, rest)?)),
            "--text" => once(&mut self.text, name, which(&value(&text, rest)?)?),
            _ => Err(usage(format!("unknown option {text}"))),
        }
    }

    /// Whether a word stands where the first file does, and so many files behind it.
    fn begins(&self, word: &str, files: usize) -> bool {
        self.files.len() == files + 1 && self.files[0] == Source::named(OsStr::new(word))
    }

    /// What the arguments ask for, by a word that stands before the files: `smt2`, `steps` or `evidence` before two, `run` or `audit` before one; else a check.
    fn asked(mut self) -> Result<Asked, Failure> {
        if self.begins(STEPS, 2) {
            self.files.remove(0);
            return self.stepwise();
        }
        if self.begins(RUN, 1) {
            self.files.remove(0);
            return self.run();
        }
        if self.begins(EVIDENCE, 2) {
            self.files.remove(0);
            return self.filing();
        }
        if self.begins(AUDIT, 1) {
            return self.auditing();
        }
        self.only_of_check()?;
        if self.begins(QUESTION, 2) {
            return self.question();
        }
        self.request().map(Asked::Check)
    }

    /// The question for a solver.
    fn question(mut self) -> Result<Asked, Failure> {
        if self
            != (Given {
                files: self.files.clone(),
                ..Given::default()
            })
        {
            return Err(usage(format!("{QUESTION} has no options")));
        }
        self.files.remove(0);
        let Request {
            script, response, ..
        } = self.request()?;
        Ok(Asked::Question { script, response })
    }

    /// Refuses options that a check does not have.
    fn only_of_check(&self) -> Result<(), Failure> {
        let options = [
            (self.function.is_some(), "--function", STEPS),
            (self.numbers, "--numbers", STEPS),
            (self.sorts.is_some(), "--sorts", RUN),
            (self.arguments.is_some(), "--arguments", RUN),
            (self.output.is_some(), "--output", EVIDENCE),
            (self.text.is_some(), "--text", AUDIT),
        ];
        match options.into_iter().find(|(given, ..)| *given) {
            Some((_, option, word)) => Err(usage(format!("{option} is an option of {word}"))),
            None => Ok(()),
        }
    }

    /// The steps of a body that the arguments ask for.
    fn stepwise(mut self) -> Result<Asked, Failure> {
        let (function, numbers) = (self.function.take(), std::mem::take(&mut self.numbers));
        self.only_of_check()?;
        Ok(Asked::Steps(Stepwise {
            request: self.request()?,
            function,
            numbers,
        }))
    }

    /// The run that the arguments ask for.
    fn run(mut self) -> Result<Asked, Failure> {
        let (sorts, arguments) = (self.sorts.take(), self.arguments.take());
        let json = std::mem::take(&mut self.json);
        self.quiet = false;
        let wanted = ran::Wanted {
            steps: self.files.remove(0),
            sorts: sorts.unwrap_or_default(),
            arguments: arguments.unwrap_or_default(),
            json,
        };
        match self == Given::default() {
            true => Ok(Asked::Run(wanted)),
            false => Err(usage(format!(
                "{RUN} has the options --sorts, --arguments and --json"
            ))),
        }
    }

    /// How the outcome is said.
    fn form(&self) -> Form {
        match (self.json, self.quiet) {
            (true, _) => Form::Json,
            (false, true) => Form::Quiet,
            (false, false) => Form::Full,
        }
    }

    /// Whether nothing is given but files and how the outcome is said.
    fn is_plain(&self) -> bool {
        let (files, json, quiet) = (self.files.clone(), self.json, self.quiet);
        let plain = Given {
            files,
            json,
            quiet,
            ..Given::default()
        };
        *self == plain
    }

    /// The evidence file that the arguments ask for.
    fn filing(mut self) -> Result<Asked, Failure> {
        let target = self.output.take().unwrap_or(Target::Beside);
        if !self.is_plain() {
            let options = "has the options --output, --json and --quiet";
            return Err(usage(format!("{EVIDENCE} {options}")));
        }
        if self.json && target == Target::StandardOutput {
            let why = "--json and the file cannot both go to standard output";
            return Err(usage(why.to_string()));
        }
        let Request {
            script,
            response,
            form,
            ..
        } = self.request()?;
        Ok(Asked::Evidence(Filing {
            script,
            response,
            target,
            form,
        }))
    }

    /// The check of an evidence file that the arguments ask for.
    fn auditing(mut self) -> Result<Asked, Failure> {
        let text = self.text.take();
        if !self.is_plain() || text.is_some() && (self.json || self.quiet) {
            let options = "has the options --text, or --json or --quiet";
            return Err(usage(format!("{AUDIT} {options}")));
        }
        Ok(Asked::Audit(Auditing {
            form: self.form(),
            file: self.files.remove(1),
            text,
        }))
    }

    /// The request that the arguments make.
    fn request(self) -> Result<Request, Failure> {
        let form = self.form();
        let points = self.points.unwrap_or(Wanted::Fitting);
        let inputs = self
            .files
            .iter()
            .filter(|one| **one == Source::StandardInput);
        if inputs.count() + usize::from(points == Wanted::Read(Source::StandardInput)) > 1 {
            return Err(usage("standard input can be read only once".to_string()));
        }
        let [script, response] =
            <[Source; 2]>::try_from(self.files).map_err(|files| match files.len() {
                0 => usage("SCRIPT and RESPONSE are missing".to_string()),
                1 => usage("RESPONSE is missing".to_string()),
                _ => usage(format!(
                    "there is one argument too many: {}",
                    files[2].name()
                )),
            })?;
        Ok(Request {
            script,
            response,
            points,
            budget: self.budget.unwrap_or(BUDGET),
            form,
            strict: self.strict,
            refute: self.refute,
        })
    }
}

/// Whether JSON is asked for, also by arguments that are wrong.
pub fn asks_for_json(arguments: &[OsString]) -> bool {
    let mut options = arguments.iter().take_while(|argument| *argument != "--");
    options.any(|argument| argument == "--json")
}

/// The value of an option: `--name value` or `--name=value`.
fn value(option: &str, rest: &mut impl Iterator<Item = OsString>) -> Result<OsString, Failure> {
    match option.split_once('=') {
        Some((_, value)) => Ok(OsString::from(value)),
        None => {
            let needed = || usage(format!("{option} needs a value"));
            rest.next().ok_or_else(needed)
        }
    }
}

/// The answer whose page is asked for.
fn explained(value: &OsStr) -> Result<u64, Failure> {
    let text = value.to_string_lossy();
    number(text.as_bytes()).ok_or_else(|| usage(format!("{text} is no number of an answer")))
}

/// A failure by wrong use.
fn usage(why: String) -> Failure {
    Failure(format!("{why}\nusage: ./sverdhyll SCRIPT RESPONSE [--points FILE] [--budget N] [--strict] [--refute[=COMMAND]] [--json] [--quiet], or --help"))
}

/// Sets what may be given once.
fn once<T>(held: &mut Option<T>, name: &str, value: T) -> Result<(), Failure> {
    match held.replace(value) {
        None => Ok(()),
        Some(_) => Err(usage(format!("{name} is given twice"))),
    }
}

/// The points that a value asks for.
fn points(value: &OsStr) -> Result<Wanted, Failure> {
    let text = value.to_string_lossy();
    let Some(asked) = text.strip_prefix("random:") else {
        return Ok(Wanted::Read(Source::named(value)));
    };
    let (count, seed) = match asked.split_once(':') {
        Some((count, seed)) => (number(count.as_bytes()), number(seed.as_bytes())),
        None => (number(asked.as_bytes()), Some(SEED)),
    };
    match (count.filter(|count| *count <= MOST_RANDOM), seed) {
        (Some(count), Some(seed)) => Ok(Wanted::Random { count, seed }),
        _ => Err(usage(format!(
            "{text} is not random:N or random:N:SEED with N at most {}",
            grouped(MOST_RANDOM)
        ))),
    }
}

/// The solver that `--refute=COMMAND` names; without a command, one that is installed.
fn solver(option: &str) -> Result<Solver, Failure> {
    let command = option.split_once('=').map(|(_, command)| command);
    match command.is_some_and(|command| command.trim().is_empty()) {
        true => Err(usage("--refute= names no command".to_string())),
        false => Ok(Solver(command.map(str::to_string))),
    }
}

/// The function that a value names: by its number, or by its name, which does not begin with a digit.
fn function(value: &OsStr) -> Chosen {
    let text = value.to_string_lossy();
    match number(text.as_bytes()) {
        Some(number) => Chosen::Number(number),
        None => Chosen::Name(text.into_owned()),
    }
}

/// Where a value says that a file goes: `-` is standard output.
fn target(value: &OsStr) -> Target {
    match value.to_str() {
        Some("-") => Target::StandardOutput,
        _ => Target::File(value.to_os_string()),
    }
}

/// The text that a value names.
fn which(value: &OsStr) -> Result<Which, Failure> {
    match value.to_str() {
        Some("script") => Ok(Which::Script),
        Some("response") => Ok(Which::Response),
        _ => {
            let text = value.to_string_lossy();
            Err(usage(format!(
                "--text {text} is neither script nor response"
            )))
        }
    }
}

/// The numbers of a value, separated by commas; none where it is empty.
fn list(option: &str, value: &OsStr) -> Result<Vec<u64>, Failure> {
    let text = value.to_string_lossy();
    if text.trim().is_empty() {
        return Ok(Vec::new());
    }
    let numbers = text.split(',').map(|one| number(one.trim().as_bytes()));
    let numbers: Option<Vec<u64>> = numbers.collect();
    numbers.ok_or_else(|| {
        usage(format!(
            "{option} {text} is no list of numbers such as 8,0x20"
        ))
    })
}

/// The budget that a value says.
fn budget(value: &OsStr) -> Result<u64, Failure> {
    let text = value.to_string_lossy();
    number(text.as_bytes()).ok_or_else(|| usage(format!("{text} is no budget from 0 to 2^64 - 1")))
}

#[cfg(test)]
mod tests {
    use super::*;

    /// What words ask for.
    fn asked(words: &str) -> Result<Asked, Failure> {
        parse(words.split(' ').map(OsString::from).collect())
    }

    /// The request of words that ask for a check.
    fn request(words: &str) -> Request {
        match asked(words) {
            Ok(Asked::Check(request)) => request,
            other => panic!("{words}: {other:?}"),
        }
    }

    #[test]
    fn requests() {
        let plain = request("a b");
        assert_eq!(plain.script, Source::named(OsStr::new("a")));
        assert_eq!(
            (plain.points, plain.budget, plain.form),
            (Wanted::Fitting, BUDGET, Form::Full)
        );
        let full = request("--json a --points=p b --budget 0x10");
        let points = Wanted::Read(Source::named(OsStr::new("p")));
        assert_eq!(
            (full.points, full.budget, full.form),
            (points, 16, Form::Json)
        );
        let random = |count, seed| Wanted::Random { count, seed };
        assert_eq!(request("a b --points random:5").points, random(5, SEED));
        assert_eq!(
            request("a b --quiet --points random:1024:9").points,
            random(1024, 9)
        );
        assert_eq!(
            request("a b --budget 18446744073709551615").budget,
            u64::MAX
        );
        assert_eq!(
            request("-- --json b").script,
            Source::named(OsStr::new("--json"))
        );
        assert_eq!(request("a - --json --quiet").form, Form::Json);
        assert_eq!(request("a -").response, Source::StandardInput);
        assert_eq!(request("a b").refute, None);
        assert_eq!(request("a --refute b").refute, Some(Solver(None)));
        let solver = Solver(Some("z3 -T:9".to_string()));
        let words = ["a", "b", "--refute=z3 -T:9", "--strict"].map(OsString::from);
        let asked = parse(words.to_vec());
        assert!(matches!(asked, Ok(Asked::Check(one)) if one.strict && one.refute == Some(solver)));
    }

    #[test]
    fn other_uses() {
        assert_eq!(parse(Vec::new()), Ok(Asked::Example));
        assert_eq!(asked("a --help"), Ok(Asked::Help));
        assert_eq!(asked("--version"), Ok(Asked::Version));
        assert_eq!(asked("--explain 14"), Ok(Asked::Explain(14)));
        assert_eq!(asked("a --explain=3"), Ok(Asked::Explain(3)));
        let question = Asked::Question {
            script: Source::named(OsStr::new("a")),
            response: Source::StandardInput,
        };
        assert_eq!(asked("smt2 a -"), Ok(question));
        assert_eq!(request("smt2 b").script, Source::named(OsStr::new("smt2")));
    }

    #[test]
    fn steps_and_runs() {
        let source = |name: &str| Source::named(OsStr::new(name));
        let Ok(Asked::Steps(steps)) = asked("steps a b --function f --numbers --points=p") else {
            panic!("steps");
        };
        assert_eq!(steps.request.script, source("a"));
        assert_eq!(steps.request.points, Wanted::Read(source("p")));
        assert_eq!(steps.function, Some(Chosen::Name("f".to_string())));
        assert!(steps.numbers);
        let Ok(Asked::Steps(steps)) = asked("steps --function=3 a b --json") else {
            panic!("steps");
        };
        assert_eq!(steps.function, Some(Chosen::Number(3)));
        assert_eq!(steps.request.form, Form::Json);
        assert_eq!(request("steps b").script, source("steps"));
        let wanted = ran::Wanted {
            steps: source("-"),
            sorts: vec![8, 32],
            arguments: vec![15, 7],
            json: false,
        };
        let run = asked("run - --sorts 8,32 --arguments=0x0f,7");
        assert_eq!(run, Ok(Asked::Run(wanted.clone())));
        let none = ran::Wanted {
            sorts: Vec::new(),
            arguments: Vec::new(),
            json: true,
            ..wanted
        };
        assert_eq!(asked("run - --json --sorts="), Ok(Asked::Run(none)));
        assert_eq!(request("./run b").script, source("./run"));
    }

    #[test]
    fn evidence_and_audits() {
        let source = |name: &str| Source::named(OsStr::new(name));
        let beside = Filing {
            script: source("a"),
            response: source("b.response"),
            target: Target::Beside,
            form: Form::Full,
        };
        let asked_for = |target, form| {
            let beside = beside.clone();
            Ok(Asked::Evidence(Filing {
                target,
                form,
                ..beside
            }))
        };
        let file = |name: &str| Target::File(OsString::from(name));
        for (words, target, form) in [
            ("evidence a b.response", Target::Beside, Form::Full),
            ("evidence a b.response -o f", file("f"), Form::Full),
            (
                "evidence --output=f a b.response --json",
                file("f"),
                Form::Json,
            ),
            (
                "evidence a b.response --quiet --output -",
                Target::StandardOutput,
                Form::Quiet,
            ),
        ] {
            assert_eq!(asked(words), asked_for(target, form), "{words}");
        }
        for (words, file, text, form) in [
            ("audit f", "f", None, Form::Full),
            ("audit - --json", "-", None, Form::Json),
            (
                "audit f --text script",
                "f",
                Some(Which::Script),
                Form::Full,
            ),
            (
                "audit --text=response f",
                "f",
                Some(Which::Response),
                Form::Full,
            ),
        ] {
            let file = source(file);
            let wanted = Auditing { file, text, form };
            assert_eq!(asked(words), Ok(Asked::Audit(wanted)), "{words}");
        }
        assert_eq!(request("evidence b").script, source("evidence"));
        assert_eq!(request("./audit b").script, source("./audit"));
    }

    #[test]
    fn json_is_asked_for_also_by_wrong_arguments() {
        for (words, asked) in [
            ("--json --fast", true),
            ("a --", false),
            ("-- --json", false),
        ] {
            let words: Vec<OsString> = words.split(' ').map(OsString::from).collect();
            assert_eq!(asks_for_json(&words), asked, "{words:?}");
        }
    }

    #[test]
    fn wrong_uses() {
        for (words, message) in [
            ("a", "RESPONSE is missing"),
            ("--json", "SCRIPT and RESPONSE are missing"),
            ("a b c", "there is one argument too many: c"),
            ("a b --points", "--points needs a value"),
            ("a b --budget", "--budget needs a value"),
            (
                "a b --budget 18446744073709551616",
                "18446744073709551616 is no budget from 0 to 2^64 - 1",
            ),
            ("a b --budget -1", "-1 is no budget from 0 to 2^64 - 1"),
            ("a b --budget=", " is no budget from 0 to 2^64 - 1"),
            ("--explain", "--explain needs a value"),
            ("--explain much", "much is no number of an answer"),
            ("a b --verbose", "unknown option --verbose"),
            ("a b -q", "unknown option -q"),
            ("a b --json=1", "unknown option --json=1"),
            ("a b --points p --points q", "--points is given twice"),
            (
                "a b --points random:",
                "random: is not random:N or random:N:SEED with N at most 4,194,304",
            ),
            (
                "a b --points random:4194305",
                "random:4194305 is not random:N or random:N:SEED with N at most 4,194,304",
            ),
            (
                "a b --points random:1:x",
                "random:1:x is not random:N or random:N:SEED with N at most 4,194,304",
            ),
            ("a b --refute=", "--refute= names no command"),
            ("a b --refute --refute", "--refute is given twice"),
            ("smt2 a b --strict", "smt2 has no options"),
            ("a b --numbers", "--numbers is an option of steps"),
            ("smt2 a b --function f", "--function is an option of steps"),
            ("steps a b --sorts 8", "--sorts is an option of run"),
            (
                "run a --strict",
                "run has the options --sorts, --arguments and --json",
            ),
            (
                "run a --sorts 8,,8",
                "--sorts 8,,8 is no list of numbers such as 8,0x20",
            ),
            (
                "run a --arguments 1 --arguments 2",
                "--arguments is given twice",
            ),
            ("steps a b c", "there is one argument too many: b"),
            ("a b -o f", "--output is an option of evidence"),
            (
                "run a --text script",
                "run has the options --sorts, --arguments and --json",
            ),
            ("steps a b --text script", "--text is an option of audit"),
            ("evidence a b -o f --output g", "--output is given twice"),
            ("evidence a b -o", "-o needs a value"),
            (
                "evidence a b --points p",
                "evidence has the options --output, --json and --quiet",
            ),
            (
                "evidence a b --json -o -",
                "--json and the file cannot both go to standard output",
            ),
            ("evidence - - -o f", "standard input can be read only once"),
            (
                "audit f -o g",
                "audit has the options --text, or --json or --quiet",
            ),
            (
                "audit f --text script --json",
                "audit has the options --text, or --json or --quiet",
            ),
            (
                "audit f --text both",
                "--text both is neither script nor response",
            ),
            ("- b --points -", "standard input can be read only once"),
        ] {
            let failure = asked(words).expect_err(words);
            assert_eq!(failure.0.lines().next(), Some(message), "{words}");
        }
    }
}
