//! The bytes of a text, from a file or from standard input, never more than are needed.

use crate::failure::{said, Failure};
use std::ffi::{OsStr, OsString};
use std::fs::File;
use std::io::{self, Read};

/// A text that is no file and has more bytes than this is taken not to end.
const MOST_COUNTED: u64 = 1 << 30;

/// Where a text comes from.
#[derive(Clone, Debug, PartialEq, Eq)]
pub enum Source {
    File(OsString),
    StandardInput,
    /// A text that the command has in itself, under a name.
    Shipped(&'static str, &'static str),
}

/// The first bytes of a text, and how many it has in all.
#[derive(Clone, Debug, Default, PartialEq, Eq)]
pub struct Text {
    pub name: String,
    pub bytes: Vec<u8>,
    pub length: u64,
}

impl Source {
    /// The source that an argument names: `-` is standard input.
    pub fn named(argument: &OsStr) -> Source {
        match argument.to_str() {
            Some("-") => Source::StandardInput,
            _ => Source::File(argument.to_os_string()),
        }
    }

    /// The name under which messages speak of it, on one line.
    pub fn name(&self) -> String {
        match self {
            Source::File(path) => path.to_string_lossy().replace(char::is_control, "?"),
            Source::StandardInput => "<standard input>".to_string(),
            Source::Shipped(name, _) => (*name).to_string(),
        }
    }

    /// The text: all of it where it has at most so many bytes, else one byte more than that, and its whole length.
    pub fn read(&self, most: usize) -> Result<Text, Failure> {
        let text = match self {
            Source::File(path) => read_file(path, most),
            Source::StandardInput => read_stream(io::stdin().lock(), most, None),
            Source::Shipped(_, text) => read_stream(text.as_bytes(), most, None),
        };
        let failed = |why| Failure(format!("cannot read {}: {why}", self.name()));
        let (bytes, length) = text.map_err(|error| failed(said(&error)))?;
        Ok(Text {
            name: self.name(),
            bytes,
            length,
        })
    }
}

/// The bytes and the length of a file; a regular file's length is the system's word.
fn read_file(path: &OsStr, most: usize) -> io::Result<(Vec<u8>, u64)> {
    let file = File::open(path)?;
    let about = file.metadata()?;
    let length = about.is_file().then_some(about.len());
    read_stream(file, most, length)
}

/// The first bytes of a stream and its length, which is counted where it is not known.
fn read_stream(
    mut stream: impl Read,
    most: usize,
    known: Option<u64>,
) -> io::Result<(Vec<u8>, u64)> {
    let mut bytes = Vec::new();
    let room = most as u64 + 1;
    stream.by_ref().take(room).read_to_end(&mut bytes)?;
    let have = bytes.len() as u64;
    let length = match known {
        _ if have < room => have,
        Some(length) => length.max(have),
        None => have + io::copy(&mut stream.take(MOST_COUNTED), &mut io::sink())?,
    };
    if known.is_none() && length > MOST_COUNTED {
        return Err(io::Error::other(format!(
            "it has not ended after {MOST_COUNTED} bytes"
        )));
    }
    Ok((bytes, length))
}

#[cfg(test)]
mod tests {
    use super::*;

    #[test]
    fn a_text_is_read_up_to_its_limit() {
        let ten = &b"0123456789"[..];
        assert_eq!(
            read_stream(ten, 10, None).expect("bytes"),
            (ten.to_vec(), 10)
        );
        assert_eq!(
            read_stream(ten, 4, None).expect("bytes"),
            (ten[..5].to_vec(), 10)
        );
        assert_eq!(
            read_stream(ten, 4, Some(10)).expect("bytes"),
            (ten[..5].to_vec(), 10)
        );
        assert_eq!(
            read_stream(ten, 20, Some(0)).expect("bytes"),
            (ten.to_vec(), 10)
        );
    }

    #[test]
    fn a_stream_that_does_not_end_is_a_failure() {
        let error = read_stream(io::repeat(0), 4, None).expect_err("no end");
        assert_eq!(said(&error), "it has not ended after 1073741824 bytes");
    }

    #[test]
    fn files_that_cannot_be_read() {
        let missing = Source::named(OsStr::new("no/such/file")).read(4);
        let message = "cannot read no/such/file: No such file or directory";
        assert_eq!(missing, Err(Failure(message.to_string())));
        let folder = Source::named(OsStr::new(".")).read(4);
        assert_eq!(
            folder,
            Err(Failure("cannot read .: Is a directory".to_string()))
        );
    }

    #[test]
    fn a_long_file_is_not_read_whole() {
        let path = std::env::temp_dir().join(format!("sverdhyll-{}", std::process::id()));
        let file = File::create(&path).expect("a file");
        file.set_len(1 << 40).expect("a sparse file");
        let text = Source::named(path.as_os_str()).read(100);
        std::fs::remove_file(&path).expect("removed");
        let text = text.expect("a text");
        assert_eq!((text.bytes.len(), text.length), (101, 1 << 40));
    }
}
