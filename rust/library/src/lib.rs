//! The proved checker between a synthesis solver and the controller that its answer goes into, for Rust.
//!
//! [`Library::check`] takes a SyGuS script, the response that a solver printed, points and a budget, and gives one [`Answer`]; [`Answer::outcome`] says what it
//! means as an enum, whose documentation is the table of answers. [`Library::read`] gives the answer of the two texts alone, where there are no points yet.
//! [`Library::word`] and [`Library::position`] say of any place of a text which word starts there, and in which line and column it stands.
//! [`Library::steps`] turns the body of an accepted response into steps for a small stack controller, and [`Library::run`] runs any list of such steps.
//! [`Library::write_evidence`] writes a file that holds two texts and a derivation of each body, and [`Library::check_evidence`] checks any file, without a search.
//!
//! ```no_run
//! use sverdhyll::{Library, Outcome, AREA_LENGTH};
//!
//! let script = std::fs::read("f.sy")?;
//! let response = std::fs::read("f.response")?;
//! let mut library = Library::open()?;
//! let mut shown = vec![0; AREA_LENGTH];
//! let answer = library.check(&script, &response, &[0, 1, 255], 1_000_000, &mut shown)?;
//! match answer.outcome() {
//!     Outcome::Accepted { points, .. } => println!("right at the {points} points whose assumptions hold"),
//!     other => println!("{other}"),
//! }
//! # Ok::<(), std::io::Error>(())
//! ```
//!
//! A package elsewhere uses it by its path, once `./sverdhyll` or `tools/staticlib checker` has made the static library in this tree:
//!
//! ```toml
//! [dependencies]
//! sverdhyll = { path = "SVERDHYLL/rust/library" }
//! ```
//!
//! The static library is x86-64 code. There it is linked and called, on the caller's stack, of which a call takes 1,619 KiB at the most (measured at the limits of all
//! inputs, docs/MEASUREMENTS.md): a thread of 2 MiB, Rust's default, suffices. On another machine one worker process for each [`Library`] holds it under an emulator, and this crate speaks with that process over
//! pipes. The worker ends with the process that started it, however that ends.

#![deny(unsafe_code)]

pub mod digest;
#[cfg(target_arch = "x86_64")]
mod linked;
mod outcome;
#[cfg(target_arch = "x86_64")]
use linked::Held;
#[cfg(not(target_arch = "x86_64"))]
mod worker;
#[cfg(not(target_arch = "x86_64"))]
use worker::Held;

pub use outcome::{Outcome, Text};
use std::fmt;
use std::io;

/// "a lent area of exactly 32,768 16-bit numbers".
pub const AREA_LENGTH: usize = 32_768;
/// "Function k's list starts at 4,096·k".
pub const LIST_LENGTH: usize = 4_096;
/// "every entry of the area that no list uses is 65,535".
pub const UNUSED: u16 = 65_535;
/// "Answer 15 numbers assumptions from 64".
pub const FIRST_ASSUMPTION: u64 = 64;
/// "8 synthesized functions".
pub const FUNCTIONS: usize = 8;
/// "an area not of 1,024 64-bit numbers (answer 17 ...)".
pub const STEPS_LENGTH: usize = 1_024;
/// A step has so many numbers.
pub const STEP: usize = 4;
/// No evidence file has more bytes: 274 blocks of 512.
pub const EVIDENCE_LENGTH: usize = 140_288;
/// So many numbers make an answer.
const NUMBERS: usize = 16;

/// An answer in numbers, as the library gives it; [`Answer::outcome`] says what they mean.
#[derive(Clone, Copy, Debug, Default, PartialEq, Eq, Hash)]
pub struct Answer {
    /// Its number in the table of answers.
    pub number: u8,
    /// Which text it speaks of: 0 script, 1 response, 2 points, 3 none or the area.
    pub text: u8,
    /// Its place.
    pub place: u64,
    /// Its second number.
    pub second: u64,
    /// The units spent.
    pub units: u64,
    /// The offset past the word at its place, after answers 2 to 9, 12 and 13; else 0, as the next two.
    pub end: u64,
    /// The line of its place.
    pub line: u64,
    /// The column of its place.
    pub column: u64,
    /// The total weight of the derivation shown for each function, or written as evidence; 0 for one that has none, and after all answers but 0, 14 and 15.
    pub weights: [u64; FUNCTIONS],
}

/// Where a place of a text stands.
#[derive(Clone, Copy, Debug, Default, PartialEq, Eq, Hash)]
pub struct Position {
    /// The offset past the word that starts there; the place itself where none does.
    pub end: u64,
    /// From 1; a line ends at byte 10 only.
    pub line: u64,
    /// From 1, in bytes.
    pub column: u64,
}

/// What the steps of a body come to.
#[derive(Clone, Copy, Debug, PartialEq, Eq, Hash)]
pub struct Stepped {
    pub answer: Answer,
    /// How many steps were written; 0 after any answer but 0.
    pub count: usize,
}

/// What a run of steps comes to: after answer 0 a value and its sort.
#[derive(Clone, Copy, Debug, PartialEq, Eq, Hash)]
pub struct Ran {
    /// Its number is 0, 19 or 20, its text 3, and no number of it but the place is other than 0.
    pub answer: Answer,
    /// The value, 0 or 1 for a Bool; 0 where the answer is not 0.
    pub value: u64,
    /// Its sort: 0 for Bool, else the width; 0 where the answer is not 0.
    pub sort: u64,
}

/// What the writing of an evidence file comes to.
#[derive(Clone, Copy, Debug, PartialEq, Eq, Hash)]
pub struct Written {
    pub answer: Answer,
    /// How many bytes the file has; 0 after any answer but 0.
    pub length: usize,
}

impl Ran {
    /// What the runner gives: the answer's number, its place, the value and its sort.
    fn of([number, place, value, sort]: [u64; 4]) -> Ran {
        let answer = Answer {
            number: number as u8,
            text: 3,
            place,
            ..Answer::default()
        };
        Ran {
            answer,
            value,
            sort,
        }
    }
}

impl Answer {
    /// The answer in the numbers that the library gives.
    fn of(numbers: [u64; NUMBERS]) -> Answer {
        let [number, text, place, second, units, end, line, column, weights @ ..] = numbers;
        Answer {
            number: number as u8,
            text: text as u8,
            place,
            second,
            units,
            end,
            line,
            column,
            weights,
        }
    }

    /// Where its place stands in its text, after answers 2 to 9, 12 and 13.
    pub fn position(self) -> Option<Position> {
        let Answer {
            end, line, column, ..
        } = self;
        (line > 0).then_some(Position { end, line, column })
    }

    /// What the answer says.
    pub fn outcome(self) -> Outcome {
        self.into()
    }
}

impl fmt::Display for Answer {
    /// What the answer says, in a sentence.
    fn fmt(&self, to: &mut fmt::Formatter) -> fmt::Result {
        self.outcome().fmt(to)
    }
}

/// The proved checker, ready for any number of checks.
pub struct Library {
    held: Held,
}

impl Library {
    /// Makes the checker ready; fails where its worker cannot be started.
    pub fn open() -> io::Result<Library> {
        Ok(Library {
            held: Held::open()?,
        })
    }

    /// The answer for a script, a response, points and a budget. Fails only where the worker has gone.
    ///
    /// `points` has one number for each declared variable, point after point; a Bool is 0 or 1. `shown` is the lent area, of [`AREA_LENGTH`] entries: after
    /// answers 0, 14 and 15 it shows the least derivation of every body, the numbers of the rules, leftmost first, those of function k from entry
    /// [`LIST_LENGTH`] · k on; every entry that no list uses is [`UNUSED`]. Least is of least total weight, then with fewest rules, then with the least rule
    /// numbers at the first difference.
    pub fn check(
        &mut self,
        script: &[u8],
        response: &[u8],
        points: &[u64],
        budget: u64,
        shown: &mut [u16],
    ) -> io::Result<Answer> {
        self.held.check(script, response, points, budget, shown)
    }

    /// The texts' own answer, for a script and a response alone. Fails only where the worker has gone.
    ///
    /// Where a text is refused, by 1 to 12, it is the answer of [`Library::check`]. Else its number is 0 and its text 3, which says that both texts pass and
    /// no more: no derivation is searched and nothing is evaluated, so that [`Answer::outcome`], which speaks of checks, would say too much.
    pub fn read(&mut self, script: &[u8], response: &[u8]) -> io::Result<Answer> {
        self.held.read(script, response)
    }

    /// The length of the word that starts at an offset of a text, 0 if none does. Fails only where the worker has gone.
    pub fn word(&mut self, text: &[u8], at: usize) -> io::Result<usize> {
        self.held.word(text, at)
    }

    /// Where a place of any text stands; one past its end has the line and the column of the end. Fails only where the worker has gone.
    pub fn position(&mut self, text: &[u8], place: usize) -> io::Result<Position> {
        self.held.position(text, place)
    }

    /// The steps of the body of a function, from 0 in the order of the script, for a script and a response in this order. Fails only where the worker has gone.
    ///
    /// `area` is lent, and must have [`STEPS_LENGTH`] numbers, else the answer is 17. Where [`Library::check`] accepts the response at these points within this
    /// budget, and the script has the function, and its body uses no `define-fun`, the answer is that of the check, and the list stands in the first
    /// [`STEP`] · `count` numbers of the area; else the answer is that of the check or 18. What no step uses stays as it was lent.
    pub fn steps(
        &mut self,
        texts: [&[u8]; 2],
        points: &[u64],
        budget: u64,
        function: u64,
        area: &mut [u64],
    ) -> io::Result<Stepped> {
        self.held.steps(texts, points, budget, function, area)
    }

    /// Runs a list of steps, wherever it comes from, on arguments of the sorts given along: 0 for Bool, else a width. Fails only where the worker has gone.
    ///
    /// The answer is 0 with the value that the list ends with, 20 at the argument or its sort that is at fault, or 19 at the step that is refused.
    pub fn run(&mut self, sorts: &[u64], arguments: &[u64], steps: &[u64]) -> io::Result<Ran> {
        self.held.run(sorts, arguments, steps)
    }

    /// Writes an evidence file for a script and a response: both texts, and the least derivation of each body. Fails only where the worker has gone.
    ///
    /// Where a text is refused, or a body has no derivation, the answer is 1 to 13, as [`Library::check`] has it; where the file is longer than the lent area it
    /// is 17. Else it is 0, about no text, with the weights of the lists, which says no more than that: nothing is evaluated, so that [`Answer::outcome`], which
    /// speaks of checks, would say too much. The file stands in the first `length` bytes of the area; what it does not take stays as it was lent. An area of
    /// [`EVIDENCE_LENGTH`] bytes suffices for every file.
    pub fn write_evidence(
        &mut self,
        script: &[u8],
        response: &[u8],
        area: &mut [u8],
    ) -> io::Result<Written> {
        self.held.write_evidence(script, response, area)
    }

    /// Checks an evidence file, whoever wrote it, without a search. Fails only where the worker has gone.
    ///
    /// The answer is 21 at a block that is not as it should be, the own answer of the texts that the file holds, with lines and columns in that text, 22 at a
    /// function whose list does not derive its body, or 0, which says that each list derives its body and no more.
    pub fn check_evidence(&mut self, file: &[u8]) -> io::Result<Answer> {
        self.held.check_evidence(file)
    }

    /// The SHA-256 of the static library that answers, in hexadecimal.
    pub fn digest(&self) -> &str {
        self.held.digest()
    }
}
