//! Texts that are not in plain ASCII with line ends of byte 10.

use super::Hint;

/// How a text is written, where that is what hinders.
pub fn hint(bytes: &[u8]) -> Option<Hint> {
    let message = match bytes {
        [0xef, 0xbb, 0xbf, ..] => "the text begins with a byte order mark (bytes ef bb bf): save it without",
        [0xff, 0xfe, ..] | [0xfe, 0xff, ..] | [0, _, ..] | [_, 0, ..] => {
            "the text looks like UTF-16: save it as ASCII or UTF-8, one byte to a letter"
        }
        _ if bytes.contains(&b'\r') && !bytes.contains(&b'\n') => {
            "lines end with byte 13 alone here, and are counted by byte 10: save the text with line ends of byte 10"
        }
        _ => return None,
    };
    Some(Hint::general(message))
}
