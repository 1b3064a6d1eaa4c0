//! Why the command could not do its work.

use std::fmt;
use std::io;

/// The exit status where the command could not do its work.
pub const FAILED: u8 = 3;

/// A message for standard error; the command ends with status 3.
#[derive(Clone, Debug, PartialEq, Eq)]
pub struct Failure(pub String);

impl fmt::Display for Failure {
    /// The message under the command's name.
    fn fmt(&self, to: &mut fmt::Formatter) -> fmt::Result {
        write!(to, "sverdhyll: {}", self.0)
    }
}

impl From<io::Error> for Failure {
    /// The message of an error of the system.
    fn from(error: io::Error) -> Failure {
        Failure(said(&error))
    }
}

/// What an error of the system says, without its number.
pub fn said(error: &io::Error) -> String {
    let text = error.to_string();
    let end = text.find(" (os error").unwrap_or(text.len());
    text[..end].to_string()
}
