//! The command `sverdhyll`: a thin front end over the proved checker. docs/COMMAND.md says what it does.

#![forbid(unsafe_code)]

mod answers;
mod arguments;
mod colour;
mod derivation;
#[cfg(test)]
mod digits;
mod edges;
mod evaluation;
mod evidence;
mod explain;
mod facts;
mod failure;
mod guards;
mod holding;
mod json;
mod layout;
mod listing;
mod notes;
mod pieces;
mod place;
mod points;
mod program;
mod progress;
mod ran;
mod random;
mod refute;
mod run;
mod search;
mod slips;
mod smt;
mod source;
mod stated;
mod text;
mod trials;

use answers::{status, thorough, MOST_RESPONSE_BYTES, MOST_SCRIPT_BYTES};
use arguments::{Asked, Auditing, Filing, Form, Request, Stepwise, BUDGET};
use evidence::Evidence;
use facts::Facts;
use failure::{said, Failure, FAILED};
use points::Wanted;
use run::{Given, Run};
use source::Source;
use std::ffi::OsString;
use std::io::{self, BufWriter, ErrorKind, Write};
use std::process::ExitCode;
use sverdhyll::Library;

/// What `--help` says.
const HELP: &str = include_str!("../help.txt");
/// The commit that the command was built from, and the kit that proved its library, as tools/ready says them.
const BUILT: [(&str, Option<&str>); 2] = [
    ("commit", option_env!("SVERDHYLL_COMMIT")),
    ("kit", option_env!("SVERDHYLL_KIT")),
];

/// The script of the shipped example.
const EXAMPLE_SCRIPT: Source = Source::Shipped(
    "examples/swap.sy",
    include_str!("../../../examples/swap.sy"),
);
/// The response of the shipped example.
const EXAMPLE_RESPONSE: Source = Source::Shipped(
    "examples/swap.response",
    include_str!("../../../examples/swap.response"),
);

/// Does what the arguments ask for; a failure is said on standard error, and to programs as JSON too.
fn main() -> ExitCode {
    let arguments: Vec<OsString> = std::env::args_os().skip(1).collect();
    let json = arguments::asks_for_json(&arguments);
    let status = arguments::parse(arguments).and_then(run);
    ExitCode::from(status.unwrap_or_else(|failure| {
        if json {
            let _ = writeln!(io::stdout(), "{}", json::failure(&failure));
        }
        let _ = writeln!(io::stderr(), "{failure}");
        FAILED
    }))
}

/// Does what is asked and gives the exit status.
fn run(asked: Asked) -> Result<u8, Failure> {
    match asked {
        Asked::Help => print(0, |to| to.write_all(HELP.as_bytes())),
        Asked::Version => print(0, |to| to.write_all(version().as_bytes())),
        Asked::Explain(number) => {
            let missing = || Failure(format!("there is no answer {number}: docs/ANSWERS.md lists them"));
            let page = explain::page(number).ok_or_else(missing)?;
            print(0, |to| to.write_all(page.as_bytes()))
        }
        Asked::Check(request) => check(&request, ""),
        Asked::Question { script, response } => question(&script, &response),
        Asked::Steps(stepwise) => steps(&stepwise),
        Asked::Run(wanted) => ran(&wanted),
        Asked::Evidence(wanted) => write_evidence(&wanted),
        Asked::Audit(wanted) => audit(&wanted),
        Asked::Example => check(
            &Request {
                script: EXAMPLE_SCRIPT,
                response: EXAMPLE_RESPONSE,
                points: Wanted::Fitting,
                budget: BUDGET,
                form: Form::Full,
                strict: false,
                refute: None,
            },
            "Checking the shipped example: the script examples/swap.sy with the response examples/swap.response.\n",
        ),
    }
}

/// What `--version` says: the version, and where the command and its library come from.
fn version() -> String {
    let library = match Library::open() {
        Ok(library) => format!("sha256 {}", library.digest()),
        Err(error) => format!("cannot be started: {}", said(&error)),
    };
    let built = BUILT.map(|(name, value)| (name, value.unwrap_or("unknown").to_string()));
    let mut lines = format!("sverdhyll {}\n", env!("CARGO_PKG_VERSION"));
    for (name, value) in built.into_iter().chain([("library", library)]) {
        lines.push_str(&format!("{name:<8} {value}\n"));
    }
    lines
}

/// Checks and says the outcome, after an opening.
fn check(request: &Request, opening: &str) -> Result<u8, Failure> {
    let mut library = open()?;
    let (given, run) = checked(&mut library, request)?;
    let facts = facts::gather(&mut library, given, run, request.strict)?;
    print(status(&facts), |to| {
        to.write_all(opening.as_bytes())?;
        write(&facts, library.digest(), request.form, to)
    })
}

/// What is given, and what the checker answers at all points.
fn checked(library: &mut Library, request: &Request) -> Result<(Given, Run), Failure> {
    let mut given = read(&request.script, &request.response)?;
    given.points = request.points.given(library)?;
    given.budget = request.budget;
    let mut run = run::run(library, &mut given, &request.points)?;
    if let Some(solver) = &request.refute {
        run.refute(library, &given, solver)?;
    }
    Ok((given, run))
}

/// Checks, and says the steps of a body where the response is accepted as it is asked; else the outcome of the check.
fn steps(wanted: &Stepwise) -> Result<u8, Failure> {
    let request = &wanted.request;
    let mut library = open()?;
    let (given, mut run) = checked(&mut library, request)?;
    let mut listed = None;
    if run.answer.number == 0 {
        let function = listing::number(&given.read, wanted.function.as_ref())?;
        listed = run.steps(&mut library, &given, function)?;
    }
    let mut facts = facts::gather(&mut library, given, run, request.strict)?;
    let accepted = facts.answer.number == 0 && (thorough(&facts) || !request.strict);
    facts.listed = listed.filter(|_| accepted);
    match (&facts.listed, request.form) {
        (Some(listed), Form::Full | Form::Quiet) if wanted.numbers => {
            print(status(&facts), |to| text::write_numbers(listed, to))
        }
        (None, Form::Full | Form::Quiet) if wanted.numbers => {
            text::write_line(&facts, &mut io::stderr())?;
            Ok(status(&facts))
        }
        _ => print(status(&facts), |to| {
            write(&facts, library.digest(), request.form, to)
        }),
    }
}

/// Runs a list of steps and says what comes of it.
fn ran(wanted: &ran::Wanted) -> Result<u8, Failure> {
    let mut library = open()?;
    let outcome = ran::run(&mut library, wanted)?;
    print(outcome.status(), |to| {
        if wanted.json {
            return writeln!(to, "{}", json::run(&outcome, library.digest()));
        }
        let mut text = Vec::new();
        outcome.write(text::columns(), &mut text)?;
        write_painted(&text, to)
    })
}

/// Writes the evidence file of a response whose bodies are derived, and says so; else what is wrong, and nothing is written.
fn write_evidence(wanted: &Filing) -> Result<u8, Failure> {
    let given = read(&wanted.script, &wanted.response)?;
    let path = wanted.target.path(&wanted.script, &wanted.response)?;
    let mut library = open()?;
    let name = evidence::name(path.as_deref());
    let (facts, bytes) = evidence::write_evidence(&mut library, given, &name)?;
    let status = status(&facts);
    match (&path, facts.answer.number) {
        (Some(path), 0) => evidence::store(path, &bytes)?,
        (None, _) => {
            text::write_line(&facts, &mut io::stderr())?;
            return print(status, |to| to.write_all(&bytes));
        }
        _ => {}
    }
    print(status, |to| {
        write(&facts, library.digest(), wanted.form, to)
    })
}

/// Checks an evidence file and says what it holds, or writes one of the texts that it holds.
fn audit(wanted: &Auditing) -> Result<u8, Failure> {
    let mut library = open()?;
    let facts = evidence::check_evidence(&mut library, &wanted.file)?;
    let status = status(&facts);
    let Some(which) = wanted.text else {
        return print(status, |to| {
            write(&facts, library.digest(), wanted.form, to)
        });
    };
    if status != 0 {
        text::write_line(&facts, &mut io::stderr())?;
    }
    let held = facts.evidence.as_ref().and_then(Evidence::held);
    let text = held.and_then(|held| held.text(which));
    let text = text.filter(|_| facts.answer.number != 21);
    print(status, |to| to.write_all(&text.unwrap_or_default().bytes))
}

/// Writes the question for an SMT solver; where the checker refuses the texts, that is said on standard error in its place.
fn question(script: &Source, response: &Source) -> Result<u8, Failure> {
    let given = read(script, response)?;
    let mut library = open()?;
    let run = run::texts(&mut library, &given)?;
    if matches!(run.answer.number, 0 | 14 | 15) {
        let question = smt::question(&given.read, &given.bodies);
        return print(0, |to| to.write_all(question.as_bytes()));
    }
    let facts = facts::gather(&mut library, given, run, false)?;
    text::write_line(&facts, &mut io::stderr())?;
    Ok(status(&facts))
}

/// The two texts and what they say, without points.
fn read(script: &Source, response: &Source) -> Result<Given, Failure> {
    let script = script.read(MOST_SCRIPT_BYTES)?;
    Ok(Given::texts(script, response.read(MOST_RESPONSE_BYTES)?))
}

/// The checker, ready for calls.
fn open() -> Result<Library, Failure> {
    let unready = |error| Failure(format!("the checker cannot be started: {}", said(&error)));
    Library::open().map_err(unready)
}

/// Writes the outcome in a form.
fn write(facts: &Facts, library: &str, form: Form, to: &mut impl Write) -> io::Result<()> {
    let mut text = Vec::new();
    match form {
        Form::Full => text::write(facts, text::columns(), &mut text)?,
        Form::Quiet => text::write_line(facts, &mut text)?,
        Form::Json => return writeln!(to, "{}", json::object(facts, library)),
    }
    write_painted(&text, to)
}

/// Writes a text; to a terminal in colour.
fn write_painted(text: &[u8], to: &mut impl Write) -> io::Result<()> {
    match colour::wanted() {
        true => to.write_all(colour::painted(&String::from_utf8_lossy(text)).as_bytes()),
        false => to.write_all(text),
    }
}

/// Writes to standard output and gives the status, also where nobody reads on.
fn print(
    status: u8,
    write: impl FnOnce(&mut BufWriter<io::StdoutLock>) -> io::Result<()>,
) -> Result<u8, Failure> {
    let mut to = BufWriter::new(io::stdout().lock());
    match write(&mut to).and_then(|()| to.flush()) {
        Err(error) if error.kind() != ErrorKind::BrokenPipe => {
            Err(Failure(format!("cannot write: {}", said(&error))))
        }
        _ => Ok(status),
    }
}
