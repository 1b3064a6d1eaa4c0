//! The static library in a worker process. Both sides send frames: eight bytes with a length, low byte first, then so many bytes. All numbers have their
//! low byte first.

use crate::{Answer, Position, Ran, Stepped, Written};
use std::env;
use std::io::{self, Read, Write};
use std::path::PathBuf;
use std::process::{Child, ChildStderr, ChildStdin, ChildStdout, Command, Stdio};

/// The script that runs the worker, in the tree that this crate was built in.
const WORKER: &str = concat!(env!("CARGO_MANIFEST_DIR"), "/worker");
/// The same script, from the folder of the command: where it is installed, and in the tree, which may have been moved.
const BESIDE: [&str; 2] = ["../libexec/sverdhyll/worker", "../../library/worker"];
/// The frame that a worker sends when it is ready.
const READY: &[u8] = b"sverdhyll";
/// How many digits the digest of the library has, which it sends then.
const DIGITS: usize = 64;
/// At most so many bytes of what a worker said before it went are told.
const MOST_SAID: u64 = 4_096;
/// The frame that begins a check.
const CHECK: &[u8] = b"check";
/// The frame that asks for the texts' own answer.
const READ: &[u8] = b"read";
/// The frame that begins an enquiry for a word.
const WORD: &[u8] = b"word";
/// The frame that begins an enquiry for a place.
const POSITION: &[u8] = b"position";
/// The frame that asks for the steps of a body.
const STEPS: &[u8] = b"steps";
/// The frame that asks for a run of steps.
const RUN: &[u8] = b"run";
/// The frame that asks for an evidence file.
const WRITE: &[u8] = b"write evidence";
/// The frame that asks for the check of an evidence file.
const EVIDENCE: &[u8] = b"check evidence";
/// How many bytes a number has.
const BYTES: usize = 8;

/// A running worker and the pipes to it.
pub struct Held {
    process: Child,
    requests: Option<ChildStdin>,
    answers: ChildStdout,
    errors: ChildStderr,
    digest: String,
}

/// The script that runs the worker: beside the running program, or in the tree that this crate was built in.
fn worker() -> io::Result<PathBuf> {
    let program = env::current_exe().unwrap_or_default();
    let folder = program.parent().map(PathBuf::from).unwrap_or_default();
    let mut places = BESIDE
        .iter()
        .map(|place| folder.join(place))
        .chain([WORKER.into()]);
    let missing = || {
        io::Error::other(format!(
            "{WORKER} is missing, and so is {}",
            folder.join(BESIDE[0]).display()
        ))
    };
    places.find(|place| place.exists()).ok_or_else(missing)
}

impl Held {
    /// Starts the worker and waits until it is ready.
    pub fn open() -> io::Result<Held> {
        let mut process = Command::new(worker()?)
            .stdin(Stdio::piped())
            .stdout(Stdio::piped())
            .stderr(Stdio::piped())
            .spawn()?;
        let requests = process.stdin.take();
        let answers = process.stdout.take().expect("standard output is piped");
        let errors = process.stderr.take().expect("standard error is piped");
        let mut held = Held {
            process,
            requests,
            answers,
            errors,
            digest: String::new(),
        };
        let mut ready = [0; READY.len()];
        held.receive(&mut ready)?;
        if ready != READY {
            return Err(io::Error::other("the checker's worker speaks otherwise"));
        }
        let mut digest = [0; DIGITS];
        held.receive(&mut digest)?;
        held.digest = String::from_utf8_lossy(&digest).into_owned();
        Ok(held)
    }

    /// The digest of the library, as the worker says it.
    pub fn digest(&self) -> &str {
        &self.digest
    }

    /// Asks the worker for `sverdhyll_answer`.
    pub fn check(
        &mut self,
        script: &[u8],
        response: &[u8],
        points: &[u64],
        budget: u64,
        shown: &mut [u16],
    ) -> io::Result<Answer> {
        let points = bytes(points);
        let mut area: Vec<u8> = shown.iter().flat_map(|one| one.to_le_bytes()).collect();
        let budget = budget.to_le_bytes();
        self.send(&[CHECK, script, response, &points, &budget, &area])?;
        let numbers = self.receive_numbers()?;
        self.receive(&mut area)?;
        for (entry, bytes) in shown.iter_mut().zip(area.chunks_exact(2)) {
            *entry = u16::from_le_bytes([bytes[0], bytes[1]]);
        }
        Ok(Answer::of(numbers))
    }

    /// Asks the worker for `sverdhyll_read`.
    pub fn read(&mut self, script: &[u8], response: &[u8]) -> io::Result<Answer> {
        self.send(&[READ, script, response])?;
        Ok(Answer::of(self.receive_numbers()?))
    }

    /// Asks the worker for `sverdhyll_word`.
    pub fn word(&mut self, text: &[u8], at: usize) -> io::Result<usize> {
        self.send(&[WORD, text, &(at as u64).to_le_bytes()])?;
        let [length] = self.receive_numbers()?;
        Ok(length as usize)
    }

    /// Asks the worker for `sverdhyll_position`, and `sverdhyll_word` for the end.
    pub fn position(&mut self, text: &[u8], place: usize) -> io::Result<Position> {
        self.send(&[POSITION, text, &(place as u64).to_le_bytes()])?;
        let [end, line, column] = self.receive_numbers()?;
        Ok(Position { end, line, column })
    }

    /// Asks the worker for `sverdhyll_steps`.
    pub fn steps(
        &mut self,
        texts: [&[u8]; 2],
        points: &[u64],
        budget: u64,
        function: u64,
        area: &mut [u64],
    ) -> io::Result<Stepped> {
        let [script, response] = texts;
        let (points, mut lent) = (bytes(points), bytes(area));
        let chosen = bytes(&[budget, function]);
        self.send(&[STEPS, script, response, &points, &chosen, &lent])?;
        let answer = Answer::of(self.receive_numbers()?);
        let [count] = self.receive_numbers()?;
        self.receive(&mut lent)?;
        for (number, bytes) in area.iter_mut().zip(lent.chunks_exact(BYTES)) {
            *number = u64::from_le_bytes(bytes.try_into().expect("the bytes of a number"));
        }
        let count = count as usize;
        Ok(Stepped { answer, count })
    }

    /// Asks the worker for `sverdhyll_run`.
    pub fn run(&mut self, sorts: &[u64], arguments: &[u64], steps: &[u64]) -> io::Result<Ran> {
        self.send(&[RUN, &bytes(sorts), &bytes(arguments), &bytes(steps)])?;
        Ok(Ran::of(self.receive_numbers()?))
    }

    /// Asks the worker for `sverdhyll_write_evidence`.
    pub fn write_evidence(
        &mut self,
        script: &[u8],
        response: &[u8],
        area: &mut [u8],
    ) -> io::Result<Written> {
        self.send(&[WRITE, script, response, &*area])?;
        let answer = Answer::of(self.receive_numbers()?);
        let [length] = self.receive_numbers()?;
        self.receive(area)?;
        let length = length as usize;
        Ok(Written { answer, length })
    }

    /// Asks the worker for `sverdhyll_check_evidence`.
    pub fn check_evidence(&mut self, file: &[u8]) -> io::Result<Answer> {
        self.send(&[EVIDENCE, file])?;
        Ok(Answer::of(self.receive_numbers()?))
    }

    /// Sends frames.
    fn send(&mut self, frames: &[&[u8]]) -> io::Result<()> {
        let mut bytes = Vec::new();
        for frame in frames {
            bytes.extend((frame.len() as u64).to_le_bytes());
            bytes.extend(*frame);
        }
        let requests = self.requests.as_mut();
        let sent = requests.map(|requests| requests.write_all(&bytes));
        sent.unwrap_or(Err(io::ErrorKind::BrokenPipe.into()))
            .map_err(|_| self.gone())
    }

    /// Why a worker that has gone went: what it said last.
    fn gone(&mut self) -> io::Error {
        self.requests = None;
        let mut said = String::new();
        let _ = self
            .errors
            .by_ref()
            .take(MOST_SAID)
            .read_to_string(&mut said);
        match said.trim_end() {
            "" => io::Error::other("the checker's worker has gone"),
            said => io::Error::other(format!("the checker's worker has gone: {said}")),
        }
    }

    /// Receives a frame of so many numbers.
    fn receive_numbers<const COUNT: usize>(&mut self) -> io::Result<[u64; COUNT]> {
        let mut frame = vec![0; BYTES * COUNT];
        self.receive(&mut frame)?;
        let mut numbers = [0; COUNT];
        for (number, bytes) in numbers.iter_mut().zip(frame.chunks_exact(BYTES)) {
            *number = u64::from_le_bytes(bytes.try_into().expect("the bytes of a number"));
        }
        Ok(numbers)
    }

    /// Receives a frame whose length is known.
    fn receive(&mut self, frame: &mut [u8]) -> io::Result<()> {
        let mut length = [0; 8];
        let received = self.answers.read_exact(&mut length);
        received.map_err(|_| self.gone())?;
        if u64::from_le_bytes(length) != frame.len() as u64 {
            return Err(io::Error::other("the checker's worker speaks otherwise"));
        }
        self.answers.read_exact(frame).map_err(|_| self.gone())
    }
}

/// Numbers as bytes.
fn bytes(numbers: &[u64]) -> Vec<u8> {
    let bytes = numbers.iter().flat_map(|one| one.to_le_bytes());
    bytes.collect()
}

impl Drop for Held {
    /// Closes the pipe of requests, upon which the worker ends, and waits for that.
    fn drop(&mut self) {
        self.requests = None;
        let _ = self.process.wait();
    }
}
