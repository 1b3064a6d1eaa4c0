//! The evidence file: written for a response whose bodies are derived, and checked. Both answers are the library's; what a file holds is said for people, so
//! that they can follow it with a pencil.

use crate::answers::{counted, grouped, MOST_RESPONSE_BYTES, MOST_SCRIPT_BYTES};
use crate::derivation::{follow, Step};
use crate::facts::{self, Derived, Facts, Note};
use crate::failure::{said, Failure};
use crate::layout::Layout;
use crate::run::{Given, Run};
use crate::source::{Source, Text};
use simple::script::Synthesized;
use simple::tree::Tree;
use std::ffi::OsString;
use std::fs;
use std::io::{self, IsTerminal};
use std::path::{Path, PathBuf};
use sverdhyll::{Library, Written, EVIDENCE_LENGTH};

/// A file that has more bytes than this is not read.
const MOST_READ: usize = 1 << 26;
/// The last part of the name of a file that is written beside a response.
const ENDING: &str = "evidence";

/// Where a file is to be written.
#[derive(Clone, Debug, PartialEq, Eq)]
pub enum Target {
    /// Beside the response, under its name.
    Beside,
    File(OsString),
    StandardOutput,
}

/// One of the texts that a file holds.
#[derive(Clone, Copy, Debug, PartialEq, Eq)]
pub enum Which {
    Script,
    Response,
}

/// A file as it was written or read.
pub struct Held {
    pub file: Text,
    pub layout: Layout,
}

/// Where a list cannot be followed.
pub struct Stopped {
    /// The name of the function and of its start symbol, where the script has the function.
    pub name: Option<(String, String)>,
    /// The steps before.
    pub steps: Vec<Step>,
    /// Why the next entry, of which they are the number, does not lead on; nothing where the library's word is all that is known.
    pub why: Option<String>,
}

/// What the call for an evidence file came to.
pub enum Evidence {
    /// After answer 0 a file was written.
    Written(Option<Held>),
    /// A file was checked; after answer 22 a list could not be followed.
    Checked(Held, Option<Stopped>),
}

impl Evidence {
    /// The file, where there is one.
    pub fn held(&self) -> Option<&Held> {
        match self {
            Evidence::Written(held) => held.as_ref(),
            Evidence::Checked(held, _) => Some(held),
        }
    }

    /// Where following stops.
    pub fn stopped(&self) -> Option<&Stopped> {
        match self {
            Evidence::Written(_) => None,
            Evidence::Checked(_, stopped) => stopped.as_ref(),
        }
    }
}

impl Target {
    /// The path that is written to, and none for standard output; it may not be that of a text.
    pub fn path(&self, script: &Source, response: &Source) -> Result<Option<PathBuf>, Failure> {
        let path = match (self, response) {
            (Target::StandardOutput, _) if io::stdout().is_terminal() => {
                let why = "an evidence file is no text, and standard output is a terminal: --output FILE says where it goes";
                return Err(Failure(why.to_string()));
            }
            (Target::StandardOutput, _) => return Ok(None),
            (Target::File(name), _) => PathBuf::from(name),
            (Target::Beside, Source::File(name)) => Path::new(name).with_extension(ENDING),
            (Target::Beside, _) => {
                let why = "the response has no name that the file could have: --output FILE says where it goes";
                return Err(Failure(why.to_string()));
            }
        };
        for text in [script, response] {
            let same = |name: &OsString| {
                let own = fs::canonicalize(&path).ok();
                own.is_some() && own == fs::canonicalize(name).ok()
            };
            if matches!(text, Source::File(name) if same(name)) {
                let name = text.name();
                return Err(Failure(format!(
                    "the file would take the place of {name}: --output FILE says where it goes"
                )));
            }
        }
        Ok(Some(path))
    }
}

/// Has the library write the file of a response, and gathers what there is to say; the bytes are those of the file, where there is one.
pub fn write_evidence(
    library: &mut Library,
    given: Given,
    name: &str,
) -> Result<(Facts, Vec<u8>), Failure> {
    let (script, response) = (&given.script.bytes, &given.response.bytes);
    let mut area = vec![0; EVIDENCE_LENGTH];
    let Written { answer, length } = library.write_evidence(script, response, &mut area)?;
    area.truncate(length);
    let held = (answer.number == 0).then(|| Held::new(name.to_string(), area.clone()));
    let mut facts = facts::gather(library, given, Run::answered(answer), false)?;
    if let Some(held) = &held {
        let lists = held.lists();
        let (derived, _) = followed(&facts.given, lists, lists.len())?;
        facts.derived = derived;
    }
    facts.evidence = Some(Evidence::Written(held));
    Ok((facts, area))
}

/// Has the library check a file, and gathers what there is to say.
pub fn check_evidence(library: &mut Library, source: &Source) -> Result<Facts, Failure> {
    let file = source.read(MOST_READ)?;
    if file.bytes.len() > MOST_READ {
        return Err(Failure(format!(
            "{} has more than {MOST_READ} bytes: no evidence file has more than {EVIDENCE_LENGTH}",
            file.name
        )));
    }
    let answer = library.check_evidence(&file.bytes)?;
    let held = Held::new(file.name, file.bytes);
    let given = held.given();
    let until = match answer.number {
        0 => held.lists().len(),
        22 => answer.place as usize,
        _ => 0,
    };
    let (derived, stopped) = followed(&given, held.lists(), until)?;
    let mut facts = facts::gather(library, given, Run::answered(answer), false)?;
    facts.derived = derived;
    facts
        .notes
        .extend(no_evidence(&held).filter(|_| answer.number == 21));
    let stopped = stopped.filter(|_| answer.number == 22);
    facts.evidence = Some(Evidence::Checked(held, stopped));
    Ok(facts)
}

/// That a file is a text, where it is one.
fn no_evidence(held: &Held) -> Option<Note> {
    let bytes = &held.file.bytes;
    let mut printed = bytes
        .iter()
        .map(|byte| matches!(byte, b'\t' | b'\n' | b'\r' | b' '..=b'~'));
    let message = "this file is a text; `./sverdhyll evidence SCRIPT RESPONSE` writes the evidence of two texts";
    (!bytes.is_empty() && printed.all(|one| one)).then(|| Note {
        message: message.to_string(),
        located: None,
    })
}

/// The derivations of the functions before one, each by its list, and where the list of that one stops.
fn followed(
    given: &Given,
    lists: &[Vec<u16>],
    until: usize,
) -> Result<(Vec<Derived>, Option<Stopped>), Failure> {
    let functions = given.read.synthesized.iter().zip(&given.bodies).zip(lists);
    let derived = functions
        .take(until)
        .map(|((function, body), list)| derived(function, body, list));
    let derived = derived.collect::<Result<Vec<Derived>, Failure>>()?;
    let stopped = lists.get(until).map(|list| {
        let function = given
            .read
            .synthesized
            .get(until)
            .zip(given.bodies.get(until));
        stopped(function, list)
    });
    Ok((derived, stopped))
}

/// A function with its body and the derivation that its list is.
fn derived(function: &Synthesized, body: &Tree, list: &[u16]) -> Result<Derived, Failure> {
    let name = function.name.clone();
    let followed = follow(function, body, list);
    if let Some(why) = followed.stop {
        return Err(Failure(format!(
            "the list of {name} cannot be followed: {why}"
        )));
    }
    let weights = followed.steps.iter().map(|step| step.weight);
    Ok(Derived {
        weight: weights.sum(),
        steps: followed.steps,
        start: start(function),
        body: body.to_string(),
        name,
    })
}

/// The name of the start symbol of a function.
fn start(function: &Synthesized) -> String {
    function.grammar.nonterminals[0].name.clone()
}

/// Where the list of a function with its body stops; of a function that is absent, before it begins.
fn stopped(function: Option<(&Synthesized, &Tree)>, list: &[u16]) -> Stopped {
    let Some((function, body)) = function else {
        return Stopped {
            name: None,
            steps: Vec::new(),
            why: None,
        };
    };
    let followed = follow(function, body, list);
    Stopped {
        name: Some((function.name.clone(), start(function))),
        steps: followed.steps,
        why: followed.stop,
    }
}

impl Held {
    /// A file of a name.
    pub fn new(name: String, bytes: Vec<u8>) -> Held {
        let layout = Layout::of(&bytes);
        let length = bytes.len() as u64;
        Held {
            file: Text {
                name,
                bytes,
                length,
            },
            layout,
        }
    }

    /// How large it is, in words.
    pub fn size(&self) -> String {
        let blocks = counted(self.layout.blocks.len() as u64, "block");
        format!("{} bytes in {blocks}", grouped(self.file.length))
    }

    /// The lists that it holds.
    fn lists(&self) -> &[Vec<u16>] {
        let contents = self.layout.contents.as_ref();
        contents.map_or(&[], |contents| &contents.lists)
    }

    /// One of its texts, under the file's name.
    pub fn text(&self, which: Which) -> Option<Text> {
        let contents = self.layout.contents.as_ref()?;
        let (word, bytes) = match which {
            Which::Script => ("script", &contents.script),
            Which::Response => ("response", &contents.response),
        };
        Some(Text {
            name: format!("{} ({word})", self.file.name),
            length: bytes.len() as u64,
            bytes: bytes.clone(),
        })
    }

    /// What its texts say; of one that is too long only the beginning is looked at.
    fn given(&self) -> Given {
        let text = |which, most| {
            let mut text = self.text(which).unwrap_or_default();
            text.bytes.truncate(most + 1);
            text
        };
        Given::texts(
            text(Which::Script, MOST_SCRIPT_BYTES),
            text(Which::Response, MOST_RESPONSE_BYTES),
        )
    }
}

/// The answers 0, 21 and 22 in words.
pub fn sentence(facts: &Facts, evidence: &Evidence) -> Option<String> {
    match (facts.answer.number, evidence) {
        (0, Evidence::Written(held)) => Some(written(facts, held.as_ref()?)),
        (0, Evidence::Checked(..)) => Some(checked(facts)),
        (21, Evidence::Checked(held, _)) => {
            let block = facts.answer.place;
            let fault = held.layout.fault.filter(|(at, _)| *at as u64 == block);
            let unknown = || format!("block {block} is not as it must be");
            Some(fault.map_or_else(unknown, |(block, fault)| fault.sentence(block)))
        }
        (22, Evidence::Checked(held, stopped)) => Some(unfollowed(facts, held, stopped.as_ref()?)),
        _ => None,
    }
}

/// That a file was written.
fn written(facts: &Facts, held: &Held) -> String {
    let derived = match facts.given.read.synthesized.len() {
        1 => "the body is derived".to_string(),
        count => format!("all {count} bodies are derived"),
    };
    let (size, name) = (held.size(), &held.file.name);
    format!("{derived}, and the evidence written to {name}: {size}; no constraint was evaluated")
}

/// That a file is right.
fn checked(facts: &Facts) -> String {
    let derives = match facts.given.read.synthesized.len() {
        1 => "the list derives the body".to_string(),
        count => format!("all {count} lists derive their bodies"),
    };
    format!("the blocks are right, both texts pass, and {derives}; no constraint was evaluated")
}

/// That a list does not derive its body, and where it cannot be followed.
fn unfollowed(facts: &Facts, held: &Held, stopped: &Stopped) -> String {
    let function = facts.answer.place as usize;
    let list = held.lists().get(function).map_or(&[][..], Vec::as_slice);
    let Some((name, _)) = &stopped.name else {
        let count = counted(facts.given.read.synthesized.len() as u64, "function");
        let rules = counted(list.len() as u64, "rule");
        return format!(
            "function {function} has a list of {rules}, but the script has {count}, counted from 0"
        );
    };
    let entry = stopped.steps.len();
    match &stopped.why {
        Some(why) if entry < list.len() => format!(
            "the list of {name} does not derive its body: at entry {entry}, counted from 0, {why}"
        ),
        Some(why) => format!("the list of {name} does not derive its body: {why}"),
        None => format!("the list of {name} does not derive its body"),
    }
}

/// The name of the file that the first line names, where it is not that of a text.
pub fn named<'a>(facts: &'a Facts, evidence: &'a Evidence) -> Option<&'a str> {
    match (facts.answer.text, evidence) {
        (3, Evidence::Checked(held, _)) => Some(&held.file.name),
        _ => None,
    }
}

/// The name of a path under which messages speak of it; none is standard output.
pub fn name(path: Option<&Path>) -> String {
    match path {
        Some(path) => Source::File(path.as_os_str().to_os_string()).name(),
        None => "<standard output>".to_string(),
    }
}

/// Writes a file to its place.
pub fn store(path: &Path, bytes: &[u8]) -> Result<(), Failure> {
    let failed = |error| {
        let name = name(Some(path));
        Failure(format!("cannot write {name}: {}", said(&error)))
    };
    fs::write(path, bytes).map_err(failed)
}
