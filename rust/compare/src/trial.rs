//! A case with its lent area, from a seed and a number.

use crate::{auditor, controller};
use simple::generate::random::Random;
use simple::generate::{crowded, mutated, noise, sized, tangled, valid, Case};
use simple::AREA_LENGTH;

/// What a checker takes.
#[derive(Clone)]
pub struct Trial {
    pub case: Case,
    pub area: Vec<u16>,
    /// A place of the script and one of the response where enquiries are made.
    pub enquiries: [usize; 2],
    /// What is asked about steps.
    pub asked: controller::Asked,
    /// What is asked about evidence.
    pub evidence: auditor::Asked,
}

/// Makes a case from a seed.
type Maker = fn(u64) -> Case;

/// The makers of cases, and how many of a hundred each makes.
const MAKERS: [(usize, Maker); 6] = [
    (18, valid),
    (10, tangled),
    (40, mutated),
    (14, crowded),
    (13, sized),
    (5, noise),
];

/// Lengths of areas of wrong size.
const WRONG: [usize; 7] = [
    0,
    1,
    4_096,
    AREA_LENGTH - 1,
    AREA_LENGTH + 1,
    2 * AREA_LENGTH,
    65_535,
];

/// The case of a seed and a number.
pub fn trial(seed: u64, number: u64) -> Trial {
    let mut random = Random::new(Random::new(seed).number().wrapping_add(number));
    let mut random = Random::new(random.number());
    let make = maker(random.below(100));
    let case = make(random.number());
    let length = match random.percent(2) {
        true => random.pick(&WRONG),
        false => AREA_LENGTH,
    };
    let any = random.number() as u16;
    let lent = random.pick(&[0, 7, 65_535, any]);
    let enquiries = [&case.script, &case.response].map(|text| random.below(text.len() + 2));
    Trial {
        case,
        area: vec![lent; length],
        enquiries,
        asked: controller::Asked::new(&mut random),
        evidence: auditor::Asked::new(&mut random),
    }
}

/// The maker for a number below a hundred.
fn maker(mut number: usize) -> Maker {
    for (share, make) in MAKERS {
        if number < share {
            return make;
        }
        number -= share;
    }
    valid
}
