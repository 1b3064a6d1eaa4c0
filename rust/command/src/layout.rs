//! An evidence file as it is laid out (docs/EVIDENCE.md): its blocks with their sums, the lengths that its payload begins with, and what stands behind them.
//! All this is for people to follow; whether a file is right is the library's word.

use crate::answers::{counted, grouped};
use std::ops::Range;
use sverdhyll::FUNCTIONS;

/// "blocks of 512 bytes".
pub const BLOCK: usize = 512;
/// "510 payload bytes".
pub const PAY: usize = 510;
/// "modulo 65,521".
const MODULUS: u64 = 65_521;
/// The lengths, with which the payload begins, have so many bytes.
const LENGTHS: u64 = 24;

/// A block: the sum that it holds and the one that its payload gives, where it is whole.
#[derive(Clone, Copy, Debug, PartialEq, Eq)]
pub struct Block {
    /// How many bytes it has, 512 where it is whole.
    pub bytes: usize,
    pub sums: Option<Sums>,
}

/// The sum that a block holds, and the one that its payload gives.
#[derive(Clone, Copy, Debug, PartialEq, Eq)]
pub struct Sums {
    pub stored: u64,
    pub sum: u64,
}

/// "script length, response length (4 bytes each, low byte first), eight derivation lengths (2 bytes each ..)".
#[derive(Clone, Copy, Debug, PartialEq, Eq)]
pub struct Lengths {
    pub script: u64,
    pub response: u64,
    /// How many rules each list has.
    pub rules: [u64; FUNCTIONS],
}

/// Why a block is refused.
#[derive(Clone, Copy, Debug, PartialEq, Eq)]
pub enum Fault {
    /// The block has so many bytes only.
    CutShort(usize),
    WrongSum(Sums),
    /// The lengths say so many payload bytes, and the blocks have so many.
    PastFile {
        needed: u64,
        held: u64,
    },
    /// The byte of the file that is not zero, and what it is.
    Filling {
        at: usize,
        byte: u8,
    },
    /// The last block that is needed.
    Spare {
        last: usize,
    },
}

/// What a file of whole blocks says.
#[derive(Clone, Debug, Default, PartialEq, Eq)]
pub struct Contents {
    pub script: Vec<u8>,
    pub response: Vec<u8>,
    /// The rules of each list.
    pub lists: Vec<Vec<u16>>,
}

/// A file as it is laid out.
#[derive(Clone, Debug, PartialEq, Eq)]
pub struct Layout {
    pub blocks: Vec<Block>,
    /// Where the first block is whole.
    pub lengths: Option<Lengths>,
    /// Where the lengths are not past the file.
    pub contents: Option<Contents>,
    /// The block that is refused, and why.
    pub fault: Option<(usize, Fault)>,
}

impl Lengths {
    /// The lengths that a payload of at least one block begins with.
    fn of(payload: &[u8]) -> Lengths {
        let mut rules = [0; FUNCTIONS];
        for (length, bytes) in rules.iter_mut().zip(payload[8..].chunks(2)) {
            *length = number(bytes);
        }
        Lengths {
            script: number(&payload[..4]),
            response: number(&payload[4..8]),
            rules,
        }
    }

    /// Where the response begins in the payload.
    fn response_at(&self) -> u64 {
        LENGTHS + self.script
    }

    /// Where the list of a function begins in the payload; of the function past the last one, where the lists end.
    pub fn list_at(&self, function: usize) -> u64 {
        let before: u64 = self.rules[..function].iter().sum();
        self.response_at() + self.response + 2 * before
    }

    /// How many payload bytes the lengths, the texts and the lists take.
    pub fn needed(&self) -> u64 {
        self.list_at(FUNCTIONS)
    }

    /// The payload bytes of the script and of the response.
    pub fn texts(&self) -> [Range<u64>; 2] {
        let at = self.response_at();
        [LENGTHS..at, at..at + self.response]
    }

    /// The payload bytes of the list of a function.
    pub fn list(&self, function: usize) -> Range<u64> {
        self.list_at(function)..self.list_at(function + 1)
    }

    /// The last block that is needed.
    fn last(&self) -> usize {
        (self.needed() - 1) as usize / PAY
    }
}

/// The number that bytes hold, "low byte first".
fn number(bytes: &[u8]) -> u64 {
    let bytes = bytes.iter().rev();
    bytes.fold(0, |number, &byte| 256 * number + u64::from(byte))
}

/// "the sum of each byte times its position from 1, modulo 65,521".
fn sum(pay: &[u8]) -> u64 {
    let weighed = pay.iter().zip(1..).map(|(&byte, at)| u64::from(byte) * at);
    weighed.sum::<u64>() % MODULUS
}

impl Block {
    /// A block of at most 512 bytes.
    fn of(bytes: &[u8]) -> Block {
        let sums = || Sums {
            stored: number(&bytes[PAY..]),
            sum: sum(&bytes[..PAY]),
        };
        Block {
            bytes: bytes.len(),
            sums: (bytes.len() == BLOCK).then(sums),
        }
    }

    /// Whether it is whole and holds its sum.
    pub fn is_right(&self) -> bool {
        self.fault().is_none()
    }

    /// Why it is wrong by itself.
    fn fault(&self) -> Option<Fault> {
        match self.sums {
            None => Some(Fault::CutShort(self.bytes)),
            Some(sums) if sums.stored != sums.sum => Some(Fault::WrongSum(sums)),
            Some(_) => None,
        }
    }
}

impl Layout {
    /// The layout of a file of any bytes.
    pub fn of(file: &[u8]) -> Layout {
        let mut blocks: Vec<Block> = file.chunks(BLOCK).map(Block::of).collect();
        if file.is_empty() {
            blocks.push(Block::of(file));
        }
        let whole = file.chunks_exact(BLOCK);
        let payload: Vec<u8> = whole.flat_map(|block| &block[..PAY]).copied().collect();
        let lengths = (!payload.is_empty()).then(|| Lengths::of(&payload));
        let mut wrong = blocks.iter().enumerate();
        let wrong = wrong.find_map(|(block, one)| Some((block, one.fault()?)));
        Layout {
            fault: wrong.or_else(|| misfilled(&payload, lengths?)),
            contents: lengths.and_then(|lengths| Contents::of(&payload, lengths)),
            lengths,
            blocks,
        }
    }
}

/// "then 0 for lengths past the file; then the first spare or wrongly filled", in a payload of right blocks.
fn misfilled(payload: &[u8], lengths: Lengths) -> Option<(usize, Fault)> {
    let (needed, held) = (lengths.needed(), payload.len() as u64);
    if needed > held {
        return Some((0, Fault::PastFile { needed, held }));
    }
    let (start, last) = (needed as usize, lengths.last());
    let filling = &payload[start..PAY * (last + 1)];
    if let Some(index) = filling.iter().position(|&byte| byte != 0) {
        let (place, byte) = (start + index, filling[index]);
        let at = place + (BLOCK - PAY) * last;
        return Some((last, Fault::Filling { at, byte }));
    }
    (payload.len() > PAY * (last + 1)).then_some((last + 1, Fault::Spare { last }))
}

impl Contents {
    /// What a payload holds; none where its lengths are past it.
    fn of(payload: &[u8], lengths: Lengths) -> Option<Contents> {
        let part = |at: Range<u64>| payload.get(at.start as usize..at.end as usize);
        let [script, response] = lengths.texts();
        let list = |function| {
            let rules = part(lengths.list(function))?.chunks(2);
            Some(rules.map(|rule| number(rule) as u16).collect())
        };
        Some(Contents {
            script: part(script)?.to_vec(),
            response: part(response)?.to_vec(),
            lists: (0..FUNCTIONS).map(list).collect::<Option<_>>()?,
        })
    }
}

impl Fault {
    /// Its kind in a word.
    pub fn kind(&self) -> &'static str {
        match self {
            Fault::CutShort(_) => "cut",
            Fault::WrongSum(_) => "sum",
            Fault::PastFile { .. } => "lengths",
            Fault::Filling { .. } => "filling",
            Fault::Spare { .. } => "spare",
        }
    }

    /// What is wrong with a block, in a sentence.
    pub fn sentence(&self, block: usize) -> String {
        match *self {
            Fault::CutShort(0) => "the file is empty: block 0 is missing".to_string(),
            Fault::CutShort(bytes) => {
                let bytes = counted(bytes as u64, "byte");
                format!("block {block} is cut short: it has {bytes} of {BLOCK}")
            }
            Fault::WrongSum(Sums { stored, sum }) => {
                format!("block {block} holds the sum {stored}, but its payload has the sum {sum}")
            }
            Fault::PastFile { needed, held } => {
                let (needed, held) = (grouped(needed), grouped(held));
                format!("the lengths in block 0 are past the file: they say {needed} bytes of payload, and there are {held}")
            }
            Fault::Filling { at, byte } => {
                format!("block {block} is wrongly filled: byte {at} of the file, behind the last list, is {byte} and not 0")
            }
            Fault::Spare { last } => {
                format!("block {block} is spare: the payload ends in block {last}")
            }
        }
    }
}

#[cfg(test)]
pub mod tests {
    use super::*;

    /// Payload in blocks, as it is cut into them.
    pub fn framed(payload: &[u8]) -> Vec<u8> {
        let mut file = Vec::new();
        for part in payload.chunks(PAY) {
            let mut pay = part.to_vec();
            pay.resize(PAY, 0);
            file.extend(&pay);
            file.extend((sum(&pay) as u16).to_le_bytes());
        }
        file
    }

    /// The payload of two texts and of lists, those that are not given being empty.
    pub fn payload(script: &[u8], response: &[u8], lists: &[&[u16]]) -> Vec<u8> {
        let length = |function: usize| lists.get(function).map_or(0, |list| list.len()) as u16;
        let mut payload = Vec::new();
        payload.extend((script.len() as u32).to_le_bytes());
        payload.extend((response.len() as u32).to_le_bytes());
        payload.extend((0..FUNCTIONS).flat_map(|function| length(function).to_le_bytes()));
        payload.extend([script, response].concat());
        payload.extend(lists.concat().iter().flat_map(|rule| rule.to_le_bytes()));
        payload
    }

    /// What is said of a file that is refused.
    fn said(file: &[u8]) -> Option<(usize, String)> {
        let (block, fault) = Layout::of(file).fault?;
        Some((block, fault.sentence(block)))
    }

    #[test]
    fn a_file_says_what_was_put_into_it() {
        let (script, response) = (vec![7; 300], vec![9; 200]);
        let lists: [&[u16]; 3] = [&[300, 2], &[], &[65_535]];
        let file = framed(&payload(&script, &response, &lists));
        let layout = Layout::of(&file);
        let lengths = layout.lengths.expect("lengths");
        assert_eq!((lengths.script, lengths.response), (300, 200));
        assert_eq!(lengths.rules, [2, 0, 1, 0, 0, 0, 0, 0]);
        assert_eq!((lengths.needed(), lengths.list(2)), (530, 528..530));
        assert_eq!((layout.blocks.len(), layout.fault), (2, None));
        let contents = layout.contents.expect("contents");
        assert_eq!((contents.script, contents.response), (script, response));
        assert_eq!(contents.lists[..3], lists.map(<[u16]>::to_vec));
        assert_eq!(contents.lists[3..], vec![Vec::new(); 5]);
    }

    #[test]
    fn any_changed_byte_is_seen_in_its_block() {
        let file = framed(&payload(&[40; 700], b"fail", &[&[1, 2, 3]]));
        for at in 0..file.len() {
            for byte in [file[at] ^ 1, !file[at], file[at].wrapping_add(127)] {
                let mut changed = file.clone();
                changed[at] = byte;
                let fault = Layout::of(&changed).fault;
                assert!(
                    matches!(fault, Some((block, Fault::WrongSum(_))) if block == at / BLOCK),
                    "{at}"
                );
            }
        }
    }

    #[test]
    fn faults_in_their_order() {
        let right = payload(&[1; 486], b"", &[]);
        let one = framed(&right);
        assert_eq!((one.len(), said(&one)), (512, None));
        let empty = "the file is empty: block 0 is missing";
        assert_eq!(said(b""), Some((0, empty.to_string())));
        let cut = "block 1 is cut short: it has 1 byte of 512";
        assert_eq!(said(&[&one[..], b"a"].concat()), Some((1, cut.to_string())));
        let mut wrong = [&one[..], b"a"].concat();
        wrong[510] ^= 1;
        assert!(
            said(&wrong).is_some_and(|(block, said)| block == 0 && said.contains("holds the sum"))
        );
        let zeros = [&one[..], &framed(&[0; PAY])].concat();
        let spare = "block 1 is spare: the payload ends in block 0";
        assert_eq!(said(&zeros), Some((1, spare.to_string())));
        let filled = framed(&[&payload(&[1; 480], b"", &[])[..], &[0, 5, 6]].concat());
        let filling =
            "block 0 is wrongly filled: byte 505 of the file, behind the last list, is 5 and not 0";
        let both = [&filled[..], &framed(&[0; PAY])].concat();
        assert_eq!(said(&filled), Some((0, filling.to_string())));
        assert_eq!(said(&both), said(&filled));
        let mut most = right;
        most[..8].fill(255);
        let past = "the lengths in block 0 are past the file: they say 8,589,934,614 bytes of payload, and there are 510";
        assert_eq!(said(&framed(&most)), Some((0, past.to_string())));
        assert_eq!(Layout::of(&framed(&most)).contents, None);
        let second = framed(&payload(&[1; 600], b"", &[]));
        let second = [&second[..512], &framed(&[1; PAY])].concat();
        let at = |said: Option<(usize, String)>| said.map(|(block, _)| block);
        assert_eq!(at(said(&second)), Some(1));
    }

    #[test]
    fn a_sum_is_one_number() {
        let mut pay = vec![0; PAY];
        pay[0] = 241;
        pay[255] = 255;
        assert_eq!(sum(&pay), 0);
        let block = Block::of(&[&pay[..], &[241, 255]].concat());
        let wrong = Sums {
            stored: 65_521,
            sum: 0,
        };
        assert_eq!(block.fault(), Some(Fault::WrongSum(wrong)));
    }
}
