//! Compares the proved checker with the simple one on random cases: `compare CASES [SEED [FIRST]]`.
//!
//! A case is made from the seed and its number alone; numbers go from FIRST on. Where FIRST is not given they go from 0 on, and every answer must come out.

mod auditor;
mod controller;
mod enquiries;
mod judge;
mod kinds;
mod record;
mod shrink;
mod tally;
mod texts;
mod trial;

use judge::{judged, Disagreement};
use std::io;
use std::process::ExitCode;
use std::sync::atomic::{AtomicU64, Ordering};
use std::thread;
use sverdhyll::Library;
use tally::Tally;
use trial::{trial, Trial};

/// The stack of a thread, as large as that of a program's first one.
const STACK: usize = 8 << 20;
/// How many disagreements are made small, written to files and printed.
const MOST_SHOWN: usize = 5;

/// What the arguments ask for.
struct Wanted {
    cases: u64,
    seed: u64,
    first: Option<u64>,
}

/// A disagreement and the case that brought it.
struct Found {
    number: u64,
    trial: Trial,
    disagreement: Disagreement,
}

/// The number of the case at work, said where a checker panics.
struct AtWork(u64);

impl Drop for AtWork {
    fn drop(&mut self) {
        if thread::panicking() {
            eprintln!("case {} of this seed brings a panic", self.0);
        }
    }
}

/// What a thread brings back.
#[derive(Default)]
struct Brought {
    tally: Tally,
    found: Vec<Found>,
}

/// The numbers that the arguments give.
fn wanted() -> Option<Wanted> {
    let numbers = std::env::args().skip(1).map(|one| one.parse().ok());
    let numbers = numbers.collect::<Option<Vec<u64>>>()?;
    if numbers.len() > 3 {
        return None;
    }
    Some(Wanted {
        cases: *numbers.first()?,
        seed: numbers.get(1).copied().unwrap_or(1),
        first: numbers.get(2).copied(),
    })
}

/// Takes the next case until all are taken, and compares the two checkers on it.
fn work(wanted: &Wanted, next: &AtomicU64) -> io::Result<Brought> {
    let mut library = Library::open()?;
    let mut brought = Brought::default();
    loop {
        let taken = next.fetch_add(1, Ordering::Relaxed);
        if taken >= wanted.cases {
            return Ok(brought);
        }
        let number = wanted.first.unwrap_or(0) + taken;
        let _at_work = AtWork(number);
        let trial = trial(wanted.seed, number);
        match judged(&mut library, &trial)? {
            Ok(agreed) => brought.tally.count(&agreed),
            Err(disagreement) => brought.found.push(Found {
                number,
                trial,
                disagreement,
            }),
        }
    }
}

/// What all threads bring back together; disagreements in the order of their cases.
fn all(wanted: &Wanted) -> io::Result<Brought> {
    let next = AtomicU64::new(0);
    let threads = thread::available_parallelism().map_or(1, usize::from);
    let parts: io::Result<Vec<Brought>> = thread::scope(|scope| {
        let start = |_| {
            let builder = thread::Builder::new().stack_size(STACK);
            builder.spawn_scoped(scope, || work(wanted, &next))
        };
        let started: io::Result<Vec<_>> = (0..threads).map(start).collect();
        let join = |one: thread::ScopedJoinHandle<'_, io::Result<Brought>>| {
            one.join().expect("no thread panics")
        };
        started?.into_iter().map(join).collect()
    });
    let mut all = Brought::default();
    for part in parts? {
        all.tally.add(&part.tally);
        all.found.extend(part.found);
    }
    all.found.sort_by_key(|found| found.number);
    Ok(all)
}

/// Makes disagreements small, writes them to files and prints them.
fn show(wanted: &Wanted, found: &[Found]) -> io::Result<()> {
    let mut library = Library::open()?;
    for one in found.iter().take(MOST_SHOWN) {
        println!(
            "seed {}, case {}: {}",
            wanted.seed, one.number, one.disagreement
        );
        let small = shrink::shrunk(&mut library, &one.trial, &one.disagreement)?;
        let folder = record::write(wanted.seed, one.number, &one.trial, &small)?;
        println!(
            "  written to {}; made small:\n{}",
            folder.display(),
            record::text(&small)
        );
    }
    println!("{} disagreements", found.len());
    Ok(())
}

/// Compares, prints how often each answer came out, and says whether all agreed and every answer came out.
fn run(wanted: &Wanted) -> io::Result<bool> {
    let brought = all(wanted)?;
    print!("{}", brought.tally);
    let missing = match wanted.first {
        None => brought.tally.missing(),
        Some(_) => Vec::new(),
    };
    for name in &missing {
        println!("{name} did not come out");
    }
    if !brought.found.is_empty() {
        show(wanted, &brought.found)?;
    }
    println!("{} cases of seed {}", wanted.cases, wanted.seed);
    Ok(missing.is_empty() && brought.found.is_empty())
}

fn main() -> ExitCode {
    let Some(wanted) = wanted() else {
        eprintln!("compare CASES [SEED [FIRST]]");
        return ExitCode::from(2);
    };
    match run(&wanted) {
        Ok(true) => ExitCode::SUCCESS,
        Ok(false) => ExitCode::FAILURE,
        Err(error) => {
            eprintln!("{error}");
            ExitCode::from(2)
        }
    }
}
