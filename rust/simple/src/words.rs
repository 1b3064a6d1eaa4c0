//! "Words of both texts": white space, comments, words and what each word is.

use crate::Fault;
use std::ops::Range;

/// "at most 9 digits (more: answer 4)".
const MOST_DIGITS: usize = 9;
/// "over 64 bits is answer 4".
const MOST_BITS: usize = 64;
/// "at most 64 bytes (more: answer 4)".
const MOST_BYTES: usize = 64;
/// "nesting 64".
const MOST_NESTING: usize = 64;
/// "The words for this leave answer 6": the feature's, and that of a rule's attribute.
const KEYWORDS: [&[u8]; 2] = [FEATURE.as_bytes(), ATTRIBUTE.as_bytes()];
/// `(set-feature :weights true)`.
pub const FEATURE: &str = ":weights";
/// `(! t :weight k)`.
pub const ATTRIBUTE: &str = ":weight";

/// What a sound word is.
#[derive(Clone, Copy, Debug, PartialEq, Eq)]
pub enum Kind {
    Open,
    Close,
    Numeral(u32),
    Bits { width: u32, value: u64 },
    Symbol,
    Keyword,
}

/// A sound word: where it starts, how it is written and what it is.
#[derive(Clone, Debug)]
pub struct Word {
    pub start: usize,
    pub text: String,
    pub kind: Kind,
}

/// "White space is 9, 10, 13, 32."
fn is_white(byte: u8) -> bool {
    matches!(byte, 9 | 10 | 13 | 32)
}

/// "A comment runs from `;` to the next 10 or 13 or the end".
fn comment_end(text: &[u8], start: usize) -> usize {
    let ends = |&byte: &u8| byte == 10 || byte == 13;
    let length = text[start..].iter().position(ends);
    length.map_or(text.len(), |length| start + length)
}

/// "A word is `(`, `)`, or a longest run of bytes up to white space, a bracket, `;` or the end."
fn word_end(text: &[u8], start: usize) -> usize {
    if matches!(text[start], b'(' | b')') {
        return start + 1;
    }
    let stops = |&byte: &u8| is_white(byte) || matches!(byte, b'(' | b')' | b';');
    let length = text[start..].iter().position(stops);
    length.map_or(text.len(), |length| start + length)
}

/// All words of a text, sound or not, in order, each from its start to its end.
pub fn cut(text: &[u8]) -> Vec<Range<usize>> {
    let mut words = Vec::new();
    let mut at = 0;
    while at < text.len() {
        if is_white(text[at]) {
            at += 1;
        } else if text[at] == b';' {
            at = comment_end(text, at);
        } else {
            let end = word_end(text, at);
            words.push(at..end);
            at = end;
        }
    }
    words
}

/// "An enquiry takes a text and an offset and gives the refused word itself": its length, 0 if no word starts there.
pub fn word(text: &[u8], at: usize) -> usize {
    let words = cut(text);
    let found = words.iter().find(|word| word.start == at);
    found.map_or(0, |word| word.len())
}

/// "a numeral: `0`, or digits not starting with 0".
pub fn is_numeral(word: &[u8]) -> bool {
    match word {
        [] => false,
        [first, others @ ..] => {
            let digits = word.iter().all(u8::is_ascii_digit);
            digits && (*first != b'0' || others.is_empty())
        }
    }
}

/// "`#x` with hex digits of either case, or `#b` with 0 and 1, at least one digit": the radix and the digits.
fn digits_of_bits(word: &[u8]) -> Option<(u32, &[u8])> {
    let (radix, digits) = match word {
        [b'#', b'x', digits @ ..] => (16, digits),
        [b'#', b'b', digits @ ..] => (2, digits),
        _ => return None,
    };
    let sound = |&digit: &u8| char::from(digit).is_digit(radix);
    (!digits.is_empty() && digits.iter().all(sound)).then_some((radix, digits))
}

/// "a symbol: letters, digits and `~ ! @ $ % ^ & * _ - + = < > . ? /`, not starting with a digit".
fn is_symbol(word: &[u8]) -> bool {
    let sound = |byte: &u8| byte.is_ascii_alphanumeric() || b"~!@$%^&*_-+=<>.?/".contains(byte);
    word.iter().all(sound) && !word[0].is_ascii_digit()
}

/// What a word is, or the number of its own fault: 6 by its first byte, 2 by its form, 4 by its size.
fn kind(word: &[u8]) -> Result<Kind, u8> {
    if KEYWORDS.contains(&word) {
        return Ok(Kind::Keyword);
    }
    if matches!(word[0], b'"' | b'|' | b':') {
        return Err(6);
    }
    if word == b"(" {
        return Ok(Kind::Open);
    }
    if word == b")" {
        return Ok(Kind::Close);
    }
    if is_numeral(word) {
        if word.len() > MOST_DIGITS {
            return Err(4);
        }
        return Ok(Kind::Numeral(number(word, 10) as u32));
    }
    if let Some((radix, digits)) = digits_of_bits(word) {
        let width = digits.len() * if radix == 16 { 4 } else { 1 };
        if width > MOST_BITS {
            return Err(4);
        }
        return Ok(Kind::Bits {
            width: width as u32,
            value: number(digits, radix),
        });
    }
    if is_symbol(word) {
        if word.len() > MOST_BYTES {
            return Err(4);
        }
        return Ok(Kind::Symbol);
    }
    Err(2)
}

/// The number that sound digits write; their count is within the limits.
fn number(digits: &[u8], radix: u32) -> u64 {
    digits.iter().fold(0, |value, &digit| {
        let digit = char::from(digit).to_digit(radix);
        value * u64::from(radix) + u64::from(digit.expect("a digit"))
    })
}

/// The words of a text, or its first fault: "2, 3, 6, and 4 for a word's size, word count or nesting: least offset,
/// at one offset the least number; length of text last".
pub fn read(text: &[u8], most_words: usize) -> Result<Vec<Word>, Fault> {
    let mut words = Vec::new();
    let mut nesting = 0;
    for (index, place) in cut(text).into_iter().enumerate() {
        let bytes = &text[place.clone()];
        let kind = kind(bytes);
        let closed_too_often = kind == Ok(Kind::Close) && nesting == 0;
        let nested_too_deep = kind == Ok(Kind::Open) && nesting == MOST_NESTING;
        let faults = [
            kind.err(),
            closed_too_often.then_some(3),
            nested_too_deep.then_some(4),
            (index >= most_words).then_some(4),
        ];
        if let Some(number) = faults.into_iter().flatten().min() {
            return Err(Fault::new(number, place.start));
        }
        match kind {
            Ok(Kind::Open) => nesting += 1,
            Ok(Kind::Close) => nesting -= 1,
            _ => {}
        }
        words.push(Word {
            start: place.start,
            text: String::from_utf8(bytes.to_vec()).expect("a sound word is ASCII"),
            kind: kind.expect("a sound word"),
        });
    }
    if nesting > 0 {
        return Err(Fault::new(3, text.len()));
    }
    Ok(words)
}
