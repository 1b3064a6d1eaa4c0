//! Colour for the outcome that people read, laid over the finished text: the text itself is the same with and without.

use std::env;
use std::io::{self, IsTerminal};

/// The verdict words and their colours: green, red, yellow.
const VERDICTS: [(&str, &str); 4] = [
    ("accepted", "1;32"),
    ("rejected", "1;31"),
    ("undecided", "1;33"),
    ("refused", "1;33"),
];
/// The colour of carets.
const CARETS: &str = "1;31";
/// The look of a place, `file:line:column:`.
const PLACE: &str = "1";

/// Whether colour is wanted: on a terminal that has it, unless the variable NO_COLOR is set and not empty (https://no-color.org).
pub fn wanted() -> bool {
    let refused = env::var_os("NO_COLOR").is_some_and(|value| !value.is_empty());
    let dumb = env::var_os("TERM").map_or(true, |terminal| terminal == "dumb");
    io::stdout().is_terminal() && !refused && !dumb
}

/// The text with colours: of the place and the verdict in its first line, and of all carets.
pub fn painted(text: &str) -> String {
    let lines = text.split_inclusive('\n').enumerate();
    lines
        .map(|(index, line)| match index {
            0 => painted_verdict(line),
            _ => painted_carets(line),
        })
        .collect()
}

/// The first line: the place, where there is one, and the verdict's word.
fn painted_verdict(line: &str) -> String {
    let found = VERDICTS.iter().filter_map(|(word, colour)| {
        let at = line.find(&format!("{word} (answer "))?;
        Some((at, *word, *colour))
    });
    let Some((at, word, colour)) = found.min() else {
        return line.to_string();
    };
    let before = match at {
        0 => String::new(),
        _ => laid(PLACE, &line[..at]),
    };
    format!("{before}{}{}", laid(colour, word), &line[at + word.len()..])
}

/// A line of carets; any other line as it is.
fn painted_carets(line: &str) -> String {
    let (before, carets) = line.trim_end().split_once("| ").unwrap_or_default();
    let carets_only =
        before.trim().is_empty() && carets.trim_start().bytes().all(|byte| byte == b'^');
    if !carets_only || carets.trim().is_empty() {
        return line.to_string();
    }
    format!("{before}| {}\n", laid(CARETS, carets))
}

/// A text in a colour.
fn laid(colour: &str, text: &str) -> String {
    format!("\x1b[{colour}m{text}\x1b[0m")
}

#[cfg(test)]
mod tests {
    use super::*;

    #[test]
    fn what_is_painted() {
        for (plain, colours) in [
            (
                "accepted (answer 0): the body is derived\nrejected (answer 14)\n",
                "\x1b[1;32maccepted\x1b[0m (answer 0): the body is derived\nrejected (answer 14)\n",
            ),
            (
                "a:1:2: refused (answer 7): ..\n    1 | x ^^\n      |   ^^\n",
                "\x1b[1ma:1:2: \x1b[0m\x1b[1;33mrefused\x1b[0m (answer 7): ..\n    1 | x ^^\n      | \x1b[1;31m  ^^\x1b[0m\n",
            ),
            ("of no verdict\n      |\n", "of no verdict\n      |\n"),
        ] {
            assert_eq!(painted(plain), colours);
        }
    }
}
