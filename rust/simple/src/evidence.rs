//! "Evidence for the auditor": a file that holds a script, a response and a derivation of each body; its writer, and its check, which searches for none.

use crate::grammar::Derivation;
use crate::replay::{replay, Break};
use crate::{derivations, located, told, Answer, MOST_SYNTHESIZED};

/// "blocks of 512 bytes".
pub const BLOCK: usize = 512;
/// "510 payload bytes, then two bytes".
pub const BLOCK_PAYLOAD: usize = 510;
/// "modulo 65,521".
pub const MODULUS: u64 = 65_521;

/// What a file says: two texts, and a list of rules for each of eight functions, "0 for absent functions".
#[derive(Clone, Debug, Default, PartialEq, Eq)]
pub struct Evidence {
    pub script: Vec<u8>,
    pub response: Vec<u8>,
    pub lists: [Vec<u16>; MOST_SYNTHESIZED],
}

impl Evidence {
    /// "Payload: script length, response length (4 bytes each, low byte first), eight derivation lengths (2 bytes each, ...), script, response, derivations (2
    /// bytes a rule)", without the zeros.
    pub fn payload(&self) -> Vec<u8> {
        let mut payload = Vec::new();
        for text in [&self.script, &self.response] {
            payload.extend((text.len() as u32).to_le_bytes());
        }
        for list in &self.lists {
            payload.extend((list.len() as u16).to_le_bytes());
        }
        payload.extend(&self.script);
        payload.extend(&self.response);
        let rules = self.lists.iter().flatten();
        payload.extend(rules.flat_map(|rule| rule.to_le_bytes()));
        payload
    }

    /// What a payload says, and how many bytes of it say that; none for "lengths past the file".
    fn of(payload: &[u8]) -> Option<(Evidence, usize)> {
        let mut rest = payload;
        let script = number(taken(&mut rest, 4)?);
        let response = number(taken(&mut rest, 4)?);
        let mut lengths = [0; MOST_SYNTHESIZED];
        for length in &mut lengths {
            *length = number(taken(&mut rest, 2)?);
        }
        let mut evidence = Evidence {
            script: taken(&mut rest, script)?.to_vec(),
            response: taken(&mut rest, response)?.to_vec(),
            lists: Default::default(),
        };
        for (list, length) in evidence.lists.iter_mut().zip(lengths) {
            let rules = taken(&mut rest, 2 * length)?.chunks(2);
            *list = rules.map(|rule| number(rule) as u16).collect();
        }
        Some((evidence, payload.len() - rest.len()))
    }
}

/// So many bytes from the front of a rest, which then begins behind them; none where it has fewer.
fn taken<'p>(rest: &mut &'p [u8], length: usize) -> Option<&'p [u8]> {
    let first = rest.get(..length)?;
    *rest = &rest[length..];
    Some(first)
}

/// The number that bytes write, "low byte first".
fn number(bytes: &[u8]) -> usize {
    let higher_first = bytes.iter().rev();
    higher_first.fold(0, |number, &byte| 256 * number + usize::from(byte))
}

/// "the sum of each byte times its position from 1, modulo 65,521".
pub fn sum(bytes: &[u8]) -> u16 {
    let products = (1..).zip(bytes).map(|(at, &byte)| at * u64::from(byte));
    (products.sum::<u64>() % MODULUS) as u16
}

/// "It is cut into blocks of 512 bytes: 510 payload bytes, then two bytes, low first, holding the sum", the last block filled with zeros.
pub fn blocks(payload: &[u8]) -> Vec<u8> {
    let mut file = Vec::new();
    for part in payload.chunks(BLOCK_PAYLOAD) {
        let mut block = part.to_vec();
        block.resize(BLOCK_PAYLOAD, 0);
        block.extend(sum(&block).to_le_bytes());
        file.extend(block);
    }
    file
}

/// "The writer tests the texts through 13, then its area (too short: 17)": the answer, and how many bytes of the area the file takes.
pub fn write(script: &[u8], response: &[u8], area: &mut [u8]) -> (Answer, usize) {
    let (evidence, weights) = match shown(script, response) {
        Ok(shown) => shown,
        Err(refusal) => return (refusal, 0),
    };
    let file = blocks(&evidence.payload());
    let length = area.len() as u64;
    let Some(place) = area.get_mut(..file.len()) else {
        return (Answer::about_none(17, length), 0);
    };
    place.copy_from_slice(&file);
    let answer = Answer {
        weights,
        ..Answer::about_none(0, 0)
    };
    (answer, file.len())
}

/// What the writer's file says of two texts, and the weights of its lists; or why there is none.
pub fn shown(
    script: &[u8],
    response: &[u8],
) -> Result<(Evidence, [u64; MOST_SYNTHESIZED]), Answer> {
    let (read, bodies) = told(script, response)?;
    let found = derivations(&read, &bodies).map_err(|none| located(none, script, response))?;
    let mut evidence = Evidence {
        script: script.to_vec(),
        response: response.to_vec(),
        lists: Default::default(),
    };
    let mut weights = [0; MOST_SYNTHESIZED];
    for (function, Derivation { weight, rules }) in found.into_iter().enumerate() {
        evidence.lists[function] = rules;
        weights[function] = weight;
    }
    Ok((evidence, weights))
}

/// What is wrong with a block.
#[derive(Clone, Copy, Debug, PartialEq, Eq)]
pub enum Fault {
    /// "an empty file is block 0".
    Empty,
    /// "cut short".
    CutShort,
    /// "with a wrong sum".
    Sum,
    /// "lengths past the file".
    Lengths,
    /// "spare".
    Spare,
    /// "wrongly filled".
    Filling,
}

/// Why a file is refused.
#[derive(Clone, Debug, PartialEq, Eq)]
pub enum Refusal {
    /// 21 at a block.
    Block(usize, Fault),
    /// "the texts' own answers".
    Texts(Answer),
    /// 22 at a function of the script.
    List(usize, Break),
    /// 22 at a function that the script lacks.
    Absent(usize),
}

/// "A separate checker accepts it exactly when ...": the answer for a file.
pub fn check(file: &[u8]) -> Answer {
    answer(checked(file))
}

/// The answer that a check comes to.
pub fn answer(told: Result<(), Refusal>) -> Answer {
    match told {
        Ok(()) => Answer::about_none(0, 0),
        Err(Refusal::Block(block, _)) => Answer::about_none(21, block as u64),
        Err(Refusal::Texts(answer)) => answer,
        Err(Refusal::List(function, _) | Refusal::Absent(function)) => {
            Answer::about_none(22, function as u64)
        }
    }
}

/// "21 is tested first, then the texts' own answers, then 22."
pub fn checked(file: &[u8]) -> Result<(), Refusal> {
    followed(&held(file)?)
}

/// What a file says whose "blocks, lengths and zero filling are right" and of which "no block is spare".
pub fn held(file: &[u8]) -> Result<Evidence, Refusal> {
    let payload = whole_blocks(file)?;
    let said = Evidence::of(&payload);
    let (evidence, length) = said.ok_or(Refusal::Block(0, Fault::Lengths))?;
    no_more(&payload, length)?;
    Ok(evidence)
}

/// The payload of a file: "the first cut short or with a wrong sum".
fn whole_blocks(file: &[u8]) -> Result<Vec<u8>, Refusal> {
    if file.is_empty() {
        return Err(Refusal::Block(0, Fault::Empty));
    }
    let mut payload = Vec::new();
    for (index, block) in file.chunks(BLOCK).enumerate() {
        if block.len() < BLOCK {
            return Err(Refusal::Block(index, Fault::CutShort));
        }
        let (part, held) = block.split_at(BLOCK_PAYLOAD);
        if held != sum(part).to_le_bytes() {
            return Err(Refusal::Block(index, Fault::Sum));
        }
        payload.extend(part);
    }
    Ok(payload)
}

/// "then the first spare or wrongly filled": a payload that says something up to a length has zeros from there to the end of that block, and no more blocks.
fn no_more(payload: &[u8], length: usize) -> Result<(), Refusal> {
    let blocks = length.div_ceil(BLOCK_PAYLOAD);
    let end = blocks * BLOCK_PAYLOAD;
    if payload[length..end].iter().any(|&byte| byte != 0) {
        return Err(Refusal::Block(blocks - 1, Fault::Filling));
    }
    match payload.len() > end {
        true => Err(Refusal::Block(blocks, Fault::Spare)),
        false => Ok(()),
    }
}

/// "script and response pass through answer 12, and each list derives its body without using a non-terminal twice at one place": the first function whose list
/// does not, "also an absent one with a list".
fn followed(evidence: &Evidence) -> Result<(), Refusal> {
    let (script, bodies) = told(&evidence.script, &evidence.response).map_err(Refusal::Texts)?;
    for (index, list) in evidence.lists.iter().enumerate() {
        match (script.synthesized.get(index), bodies.get(index)) {
            (Some(function), Some(body)) => {
                replay(function, body, list).map_err(|why| Refusal::List(index, why))?;
            }
            _ if !list.is_empty() => return Err(Refusal::Absent(index)),
            _ => {}
        }
    }
    Ok(())
}
