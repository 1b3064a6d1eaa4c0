//! Holds the evidence files of both against each other: what both write, and what both answer to that file and to a damaged one.

use crate::judge::given;
use crate::trial::Trial;
use simple::evidence::{
    answer, blocks, checked, held, sum, Evidence, Fault, Refusal, BLOCK, BLOCK_PAYLOAD, MODULUS,
};
use simple::generate::random::Random;
use simple::generate::{damaged, evidence};
use simple::replay::Break;
use std::io;
use sverdhyll::{Library, Written};

/// How many kinds of calls there are.
pub const KINDS: usize = 30;

/// What came out of the calls, each of which must.
pub const NAMES: [&str; KINDS] = [
    "evidence to an area of just its length",
    "evidence to a longer area",
    "evidence of more than one block",
    "evidence with weights",
    "answer 17, an area for evidence that is a byte short",
    "answer 17, an area for evidence that is shorter still",
    "evidence asked of texts that are refused",
    "evidence asked of a body without a derivation",
    "answer 0, evidence as it was written",
    "answer 0, evidence with another list than the writer's",
    "answer 0, evidence with texts that are changed",
    "answer 21, an empty file",
    "answer 21, a block that is cut short",
    "answer 21, a wrong sum",
    "answer 21, a sum that is stored plus 65,521",
    "answer 21, lengths past the file",
    "answer 21, a spare block",
    "answer 21, a block that is wrongly filled",
    "answer 21 behind the first block",
    "evidence whose script is refused",
    "evidence whose response is refused",
    "answer 22, other words than the body's",
    "answer 22, a non-terminal twice at one place",
    "answer 22, a list that ends early",
    "answer 22, a rule of another non-terminal or of none",
    "answer 22, a rule that does not derive a word",
    "answer 22, a list with a rule too many",
    "answer 22, a function that the script lacks",
    "answer 22, a function of the script behind the first",
    "evidence whose payload just fills its blocks",
];

/// The length of an area for a file.
#[derive(Clone, Copy, Debug)]
pub enum Room {
    /// So many bytes less than the file has.
    Less(usize),
    /// So many bytes more than the file has.
    More(usize),
}

/// What is asked beside the case: the length of an area, and the seed of its bytes and of the damaged file.
#[derive(Clone)]
pub struct Asked {
    pub room: Room,
    seed: u64,
}

/// How often each kind came out, or what is wrong.
pub type Counted = Result<[u64; KINDS], String>;

impl Asked {
    /// What is asked, by a random source.
    pub fn new(random: &mut Random) -> Asked {
        let less = random.pick(&[1, 1, 2, 510, BLOCK, BLOCK + 1, usize::MAX]);
        let more = random.pick(&[0, 0, 1, 2, 511, BLOCK, 5_000]);
        Asked {
            room: match random.percent(20) {
                true => Room::Less(less),
                false => Room::More(more),
            },
            seed: random.number(),
        }
    }

    /// The area for a file of a length.
    fn area(&self, length: usize) -> Vec<u8> {
        let length = match self.room {
            Room::Less(less) => length.saturating_sub(less),
            Room::More(more) => length + more,
        };
        let mut random = Random::new(self.seed);
        (0..length).map(|_| random.number() as u8).collect()
    }
}

/// The damaged file of a case.
pub fn damaged_file(trial: &Trial) -> Vec<u8> {
    let (case, seed) = (&trial.case, trial.evidence.seed);
    damaged(seed, evidence(seed, &case.script, &case.response))
}

/// What comes out of the calls for a case, or what is wrong with those of the proved checker.
pub fn counted(library: &mut Library, trial: &Trial) -> io::Result<Counted> {
    let (case, seed) = (&trial.case, trial.evidence.seed);
    let mut counts = [0; KINDS];
    let said = evidence(seed, &case.script, &case.response);
    let payload = said.payload();
    let whole = blocks(&payload);
    let other = damaged(seed, said.clone());
    if let Some(fault) = written_fault(library, &trial.evidence, &said, whole.len(), &mut counts)? {
        return Ok(Err(fault));
    }
    let just = payload.len() % BLOCK_PAYLOAD == 0;
    counts[29] += u64::from(just && checked(&whole).is_ok());
    for file in [&whole, &other] {
        let told = checked(file);
        if let Some(fault) = checked_fault(library, file, &told)? {
            return Ok(Err(fault));
        }
        count_checked(file, told, &said, &mut counts);
    }
    Ok(Ok(counts))
}

/// What is wrong with what the proved writer gives for the texts of a file that would have so many bytes: with the answer, the length or the area.
fn written_fault(
    library: &mut Library,
    asked: &Asked,
    said: &Evidence,
    length: usize,
    counts: &mut [u64; KINDS],
) -> io::Result<Option<String>> {
    let (script, response) = (&said.script, &said.response);
    let lent = asked.area(length);
    let (mut area, mut simple_area) = (lent.clone(), lent);
    let proved = library.write_evidence(script, response, &mut area)?;
    let (answer, length) = simple::evidence::write(script, response, &mut simple_area);
    let simple = Written {
        answer: given(answer),
        length,
    };
    count_written(&simple, &asked.room, counts);
    if proved != simple {
        return Ok(Some(format!("the evidence: {proved:?}, not {simple:?}")));
    }
    let mut bytes = area.iter().zip(&simple_area);
    let other = bytes.position(|(proved, simple)| proved != simple);
    Ok(other.map(|at| format!("byte {at} of the area for evidence")))
}

/// Counts what a call of the writer came to.
fn count_written(written: &Written, room: &Room, counts: &mut [u64; KINDS]) {
    let Written { answer, length } = written;
    counts[match (answer.number, room) {
        (0, Room::More(0)) => 0,
        (0, _) => 1,
        (17, Room::Less(1)) => 4,
        (17, _) => 5,
        (13, _) => 7,
        _ => 6,
    }] += 1;
    counts[2] += u64::from(*length > BLOCK);
    counts[3] += u64::from(answer.weights != [0; sverdhyll::FUNCTIONS]);
}

/// What is wrong with the proved answer to a file, if anything, of which the simple check says this.
fn checked_fault(
    library: &mut Library,
    file: &[u8],
    told: &Result<(), Refusal>,
) -> io::Result<Option<String>> {
    let proved = library.check_evidence(file)?;
    let simple = given(answer(told.clone()));
    let length = file.len();
    let differ = proved != simple;
    Ok(differ.then(|| format!("evidence of {length} bytes: {proved:?}, not {simple:?}")))
}

/// Counts what the check of a file came to, which was made of what the whole file says.
fn count_checked(
    file: &[u8],
    told: Result<(), Refusal>,
    said: &Evidence,
    counts: &mut [u64; KINDS],
) {
    let later = match told {
        Err(Refusal::Block(block, _)) => (block > 0).then_some(18),
        Err(Refusal::List(function, _)) => (function > 0).then_some(28),
        _ => None,
    };
    for kind in later.into_iter().chain([kind(file, told, said)]) {
        counts[kind] += 1;
    }
}

/// Of which kind the check of a file is.
fn kind(file: &[u8], told: Result<(), Refusal>, said: &Evidence) -> usize {
    match told {
        Ok(()) => {
            let held = held(file).expect("sound blocks after 0");
            match held.lists == said.lists {
                true if held == *said => 8,
                true => 10,
                false => 9,
            }
        }
        Err(Refusal::Block(_, Fault::Empty)) => 11,
        Err(Refusal::Block(_, Fault::CutShort)) => 12,
        Err(Refusal::Block(block, Fault::Sum)) if past(&file[BLOCK * block..]) => 14,
        Err(Refusal::Block(_, Fault::Sum)) => 13,
        Err(Refusal::Block(_, Fault::Lengths)) => 15,
        Err(Refusal::Block(_, Fault::Spare)) => 16,
        Err(Refusal::Block(_, Fault::Filling)) => 17,
        Err(Refusal::Texts(answer)) if answer.text == 0 => 19,
        Err(Refusal::Texts(_)) => 20,
        Err(Refusal::List(_, Break::Word(_))) => 21,
        Err(Refusal::List(_, Break::Twice(_))) => 22,
        Err(Refusal::List(_, Break::Ended)) => 23,
        Err(Refusal::List(_, Break::NoRule(_))) => 24,
        Err(Refusal::List(_, Break::Underived(_))) => 25,
        Err(Refusal::List(_, Break::Left)) => 26,
        Err(Refusal::Absent(_)) => 27,
    }
}

/// Whether a block holds its sum plus 65,521.
fn past(block: &[u8]) -> bool {
    let (payload, held) = block[..BLOCK].split_at(BLOCK_PAYLOAD);
    let held = u64::from(u16::from_le_bytes([held[0], held[1]]));
    held == u64::from(sum(payload)) + MODULUS
}
