//! A stored case with its answer, and what the checker does otherwise.

use crate::places::assert_located;
use crate::texts::assert_read;
use simple::{check, replay, Answer, AREA_LENGTH};

/// What is given, under a name, and its answer.
pub struct Case {
    pub name: String,
    pub script: Vec<u8>,
    pub response: Vec<u8>,
    pub points: Vec<u64>,
    pub budget: u64,
    pub area_length: usize,
    /// The numbers that are stored of its answer: the first five, the first eight, or all sixteen.
    pub answer: Vec<u64>,
}

/// The bytes that hex digits write.
pub fn bytes(digits: &str) -> Vec<u8> {
    let byte = |pair: &[u8]| {
        let pair = std::str::from_utf8(pair).expect("digits");
        u8::from_str_radix(pair, 16).expect("hex digits")
    };
    digits.as_bytes().chunks(2).map(byte).collect()
}

/// The numbers of an answer.
fn numbers(answer: &Answer) -> Vec<u64> {
    let first = [
        answer.number.into(),
        answer.text.into(),
        answer.place,
        answer.second,
        answer.units,
        answer.end,
        answer.line,
        answer.column,
    ];
    [first, answer.weights].concat()
}

impl Case {
    /// The area after the case, lent with an entry that no list has; or what is wrong with it or with the answer.
    pub fn area(&self) -> Result<Vec<u16>, String> {
        let mut area = vec![4_660; self.area_length];
        let (script, response) = (&self.script, &self.response);
        let answer = check(script, response, &self.points, self.budget, &mut area);
        assert_located(&answer, script, response);
        assert_read(&answer, script, response);
        let stored = self.answer.len();
        assert!([5, 8, 16].contains(&stored), "{}: {stored}", self.name);
        if numbers(&answer)[..stored] != self.answer {
            return Err(format!("{}: {answer:?}, not {:?}", self.name, self.answer));
        }
        let fault = if self.area_length == AREA_LENGTH {
            replay::area_fault(script, response, answer.number, &area)
        } else {
            let changed = area.iter().any(|&entry| entry != 4_660);
            changed.then(|| "an area of wrong size has changed".to_string())
        };
        match fault {
            Some(fault) => Err(format!("{}: {fault}", self.name)),
            None => Ok(area),
        }
    }
}
