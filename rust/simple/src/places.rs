//! "Say where the word ends": the end of the word at a place of a text, and the place's line and column.

use crate::words::word;

/// "a line ending at byte 10 only".
const LINE_END: u8 = 10;

/// What is told of a place of a text besides its offset.
#[derive(Clone, Copy, Debug, PartialEq, Eq)]
pub struct Position {
    pub end: u64,
    pub line: u64,
    pub column: u64,
}

/// "each word's end besides its start": the end of the word that starts at a place, the place itself where none starts.
pub fn end(text: &[u8], place: usize) -> usize {
    place + word(text, place)
}

/// "every place inside a text gains its line and column, from 1"; "a place at the text's end has the line and column after the last byte", and so has one
/// past it.
pub fn line_and_column(text: &[u8], place: usize) -> (usize, usize) {
    let before = &text[..place.min(text.len())];
    let lines_ended = before.iter().filter(|&&byte| byte == LINE_END);
    let in_line = before.iter().rev().take_while(|&&byte| byte != LINE_END);
    (1 + lines_ended.count(), 1 + in_line.count())
}

/// The end of the word at a place, and the place's line and column.
pub fn position(text: &[u8], place: usize) -> Position {
    let (line, column) = line_and_column(text, place);
    Position {
        end: end(text, place) as u64,
        line: line as u64,
        column: column as u64,
    }
}
