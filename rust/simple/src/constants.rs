//! "Carry `(_ bv15 8)` too, as one node; after `bv` stands a numeral of at most 20 digits (more: answer 4), below 2^n, else
//! answer 8, and n keeps a sort's range (0 is answer 8, above 64 answer 4)."

use crate::terms::MOST_WIDTH;
use crate::tree::Tree;
use crate::words::is_numeral;

/// "a numeral of at most 20 digits (more: answer 4)".
const MOST_DIGITS: usize = 20;

/// The word bvN and the numeral n of exactly `(_ bvN n)`, with what they say.
pub struct Constant<'a> {
    pub word: &'a Tree,
    pub digits: &'a str,
    pub numeral: &'a Tree,
    pub width: u32,
}

/// "after `bv` stands a numeral": the digits of N where a tree is a word bvN.
pub fn digits_after_bv(word: &Tree) -> Option<&str> {
    let digits = word.symbol()?.strip_prefix("bv")?;
    is_numeral(digits.as_bytes()).then_some(digits)
}

/// The constant that a tree is by its shape, whether its numbers are sound or not.
pub fn constant(tree: &Tree) -> Option<Constant<'_>> {
    match tree.items()? {
        [mark, word, numeral] if mark.symbol() == Some("_") => Some(Constant {
            word,
            digits: digits_after_bv(word)?,
            numeral,
            width: numeral.numeral()?,
        }),
        _ => None,
    }
}

impl Constant<'_> {
    /// The first of its words that is past a limit.
    pub fn past_limit(&self) -> Option<usize> {
        if self.digits.len() > MOST_DIGITS {
            return Some(self.word.start());
        }
        (self.width > MOST_WIDTH).then(|| self.numeral.start())
    }

    /// Its value, none where n is no width or the value is not "below 2^n".
    pub fn value(&self) -> Option<u64> {
        let value: u128 = self.digits.parse().ok()?;
        let sound = (1..=MOST_WIDTH).contains(&self.width) && value < 1 << self.width;
        sound.then_some(value as u64)
    }
}
