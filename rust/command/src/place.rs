//! The line of a text that a place stands in, with carets under a word; where it stands is the checker's word.

use simple::words::cut;
use std::ops::Range;
use sverdhyll::Position;

/// At most so many columns of a line are shown.
const MOST_COLUMNS: usize = 100;
/// So many columns of a line are shown at least, however narrow the terminal is.
const LEAST_COLUMNS: usize = 20;
/// What stands for the part of a line that is not shown.
const CUT: &str = "...";

/// A place in a text.
#[derive(Clone, Debug, PartialEq, Eq)]
pub struct Place {
    pub position: Position,
    /// The word that starts there, or nothing; of a note all that it speaks of.
    pub word: String,
    /// The line, or the part of it around the word.
    pub source: String,
    /// Spaces, then a caret under each column of the word, at least one.
    pub carets: String,
}

impl Place {
    /// The line and its carets, cut once more where they have more columns than these.
    pub fn within(&self, columns: usize) -> (String, String) {
        let Place { source, carets, .. } = self;
        if source.len().max(carets.len()) <= columns {
            return (source.clone(), carets.clone());
        }
        let start = carets.len() - carets.trim_start().len();
        let end = carets.len().min(source.len());
        window(
            source[..start].to_string(),
            &source[start..end],
            source[end..].to_string(),
            columns.max(LEAST_COLUMNS) - CUT.len(),
        )
    }
}

/// A place of a text, with carets under these bytes.
pub fn place(text: &[u8], marked: Range<usize>, position: Position) -> Place {
    let at = marked.start.min(text.len());
    let end = marked.end.clamp(at, text.len());
    let start = (at + 1).saturating_sub(position.column as usize);
    let stop = text[end..]
        .iter()
        .position(|&byte| byte == b'\n')
        .map_or(text.len(), |found| end + found);
    let word = shown(&text[at..end]);
    let (source, carets) = window(
        shown(&text[start..at]),
        &word,
        shown(&text[end..stop])
            .trim_end_matches("\\x0d")
            .to_string(),
        MOST_COLUMNS,
    );
    Place {
        position,
        word,
        source,
        carets,
    }
}

/// The offset of the first bracket of a text that is never closed.
pub fn unclosed(text: &[u8]) -> Option<usize> {
    let mut open = Vec::new();
    for word in cut(text) {
        match &text[word.clone()] {
            b"(" => open.push(word.start),
            b")" => drop(open.pop()),
            _ => {}
        }
    }
    open.first().copied()
}

/// Bytes as one line of ASCII: a tab is four spaces, and what is not printed is `\x` and two digits.
pub fn shown(bytes: &[u8]) -> String {
    let mut line = String::new();
    for &byte in bytes {
        match byte {
            b'\t' => line.push_str("    "),
            b' '..=b'~' => line.push(char::from(byte)),
            _ => line.push_str(&format!("\\x{byte:02x}")),
        }
    }
    line
}

/// The line around a word, and the carets under the word; all three parts are ASCII. Of a line that is longer than `most` so many columns are left, about half of
/// them before the word, and the mark of a cut behind them.
fn window(mut before: String, word: &str, mut after: String, most: usize) -> (String, String) {
    if before.len() + word.len() + after.len() > most {
        if before.len() > most / 2 {
            before = CUT.to_string() + &before[before.len() - most / 2..];
        }
        let left = most.saturating_sub(before.len());
        let word = &word[..word.len().min(left)];
        let left = left - word.len();
        if after.len() > left {
            after = after[..left].to_string() + CUT;
        }
        return with_carets(before, word, after);
    }
    with_carets(before, word, after)
}

/// The line that three parts make, and carets under the second.
fn with_carets(before: String, word: &str, after: String) -> (String, String) {
    let carets = " ".repeat(before.len()) + &"^".repeat(word.len().max(1));
    (before + word + &after, carets)
}

#[cfg(test)]
mod tests {
    use super::*;

    /// The place of a word of this length in a column of a text.
    fn marked(text: &[u8], at: usize, length: usize, column: u64) -> Place {
        let position = Position {
            column,
            ..Position::default()
        };
        place(text, at..at + length, position)
    }

    /// The line and the carets at a place.
    fn lines(text: &[u8], at: usize, length: usize, column: u64) -> (String, String) {
        let place = marked(text, at, length, column);
        (place.source, place.carets)
    }

    #[test]
    fn the_line_is_that_of_the_column() {
        let text = b"ab\ncd e\r\n";
        let shown = |line: &str, carets: &str| (line.to_string(), carets.to_string());
        assert_eq!(lines(text, 0, 2, 1), shown("ab", "^^"));
        assert_eq!(lines(text, 2, 0, 3), shown("ab", "  ^"));
        assert_eq!(lines(text, 6, 1, 4), shown("cd e", "   ^"));
        assert_eq!(lines(text, 9, 0, 1), shown("", "^"));
        assert_eq!(lines(b"", 0, 0, 1), shown("", "^"));
    }

    #[test]
    fn the_first_bracket_that_stays_open() {
        assert_eq!(unclosed(b"(a) ((b) ; )\n (c"), Some(4));
        assert_eq!(unclosed(b"(a)"), None);
    }

    #[test]
    fn tabs_and_other_bytes_keep_the_carets_under_the_word() {
        let text = b"\ta\xc3\xa9\x1b(wrong\xff )";
        let (source, carets) = lines(text, 6, 6, 7);
        assert_eq!(source, "    a\\xc3\\xa9\\x1b(wrong\\xff )");
        assert_eq!(carets, format!("{}^^^^^^^^^", " ".repeat(18)));
        assert_eq!(&source[18..27], "wrong\\xff");
    }

    #[test]
    fn long_lines_are_cut_around_the_word() {
        let text = format!("{} word {}", "a".repeat(200), "b".repeat(200));
        let (source, carets) = lines(text.as_bytes(), 201, 4, 202);
        assert!(source.starts_with("...aa") && source.ends_with("bb..."));
        assert!(source.len() <= MOST_COLUMNS + CUT.len());
        let at = source.find("word").expect("the word is shown");
        assert_eq!(carets, " ".repeat(at) + "^^^^");
        let (source, carets) = lines(&[b'c'; 30_000], 0, 30_000, 1);
        assert_eq!((source.len(), carets.len()), (MOST_COLUMNS, MOST_COLUMNS));
    }

    #[test]
    fn a_narrow_terminal_has_the_word_and_its_carets() {
        let text = format!("{} word {}", "a".repeat(200), "b".repeat(200));
        for (at, length) in [(201, 4), (0, 0), (0, 200), (206, 200), (406, 0)] {
            let place = marked(text.as_bytes(), at, length, at as u64 + 1);
            assert_eq!(
                place.within(usize::MAX),
                (place.source.clone(), place.carets.clone())
            );
            for columns in 0..=110 {
                let (source, carets) = place.within(columns);
                let widest = source.len().max(carets.len());
                assert!(widest <= columns.max(LEAST_COLUMNS), "{at} in {columns}");
                let start = carets.find('^').expect("a caret");
                let under = source.get(start..carets.len()).unwrap_or_default();
                let word = text[at..at + length].to_string();
                assert!(length == 0 || word.starts_with(under), "{at} in {columns}");
                assert!(length == 0 || !under.is_empty(), "{at} in {columns}");
            }
        }
    }
}
