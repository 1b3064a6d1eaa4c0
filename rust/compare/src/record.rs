//! Cases written to files.

use crate::auditor::damaged_file;
use crate::trial::Trial;
use std::path::{Path, PathBuf};
use std::{fs, io};

/// The folder of all cases written.
const FOLDER: &str = concat!(env!("CARGO_MANIFEST_DIR"), "/../../target/compare");

/// Writes a case as it was made and made small; gives the folder that holds both.
pub fn write(seed: u64, number: u64, trial: &Trial, small: &Trial) -> io::Result<PathBuf> {
    let folder = Path::new(FOLDER).join(format!("{seed}-{number}"));
    write_one(&folder, trial)?;
    write_one(&folder.join("small"), small)?;
    folder.canonicalize()
}

/// Writes script, response, points, budget and evidence of a case to files of a folder.
fn write_one(folder: &Path, trial: &Trial) -> io::Result<()> {
    fs::create_dir_all(folder)?;
    fs::write(folder.join("script.sy"), &trial.case.script)?;
    fs::write(folder.join("response"), &trial.case.response)?;
    fs::write(folder.join("evidence"), damaged_file(trial))?;
    fs::write(folder.join("numbers"), numbers(trial))
}

/// The points, the budget and the area of a case as text.
fn numbers(trial: &Trial) -> String {
    let (case, area) = (&trial.case, &trial.area);
    let lent = area.first().map_or(0, |&entry| entry);
    format!(
        "points {:?}\nbudget {}\narea of {} entries, each {lent}\nenquiries at {:?}\nsteps of function {} to an area of {} numbers\nevidence to an area of {:?}\n",
        case.points,
        case.budget,
        area.len(),
        trial.enquiries,
        trial.asked.function,
        trial.asked.area.len(),
        trial.evidence.room
    )
}

/// A case as text.
pub fn text(trial: &Trial) -> String {
    let shown = |text: &[u8]| text.escape_ascii().to_string();
    format!(
        "script {}\nresponse {}\n{}",
        shown(&trial.case.script),
        shown(&trial.case.response),
        numbers(trial)
    )
}
