//! Counts how often each answer comes out of random cases: `profile [seeds] [first seed]`.

use simple::generate::{crowded, mutated, valid, Case};
use simple::{check, replay, AREA_LENGTH};

/// How often each answer number came, how often 7 of a name that is taken, and how often an area was not as it should be.
struct Profile {
    numbers: [u64; 17],
    taken: u64,
    area_faults: u64,
}

/// The profile of the cases that a maker makes from so many seeds.
fn profile(make: fn(u64) -> Case, first: u64, seeds: u64) -> Profile {
    let mut profile = Profile {
        numbers: [0; 17],
        taken: 0,
        area_faults: 0,
    };
    let mut area = vec![0; AREA_LENGTH];
    for seed in first..first + seeds {
        let case = make(seed);
        let (script, response) = (&case.script, &case.response);
        let answer = check(script, response, &case.points, case.budget, &mut area);
        profile.numbers[usize::from(answer.number)] += 1;
        profile.taken += u64::from(answer.number == 7 && answer.second > 0);
        if let Some(fault) = replay::area_fault(script, response, answer.number, &area) {
            profile.area_faults += 1;
            println!("seed {seed}: {fault}");
        }
    }
    profile
}

/// The number that an argument of the program gives.
fn argument(index: usize, otherwise: u64) -> u64 {
    let text = std::env::args().nth(index);
    text.map_or(otherwise, |text| text.parse().expect("a number"))
}

fn main() {
    let (seeds, first) = (argument(1, 10_000), argument(2, 0));
    let profiles = [valid, mutated, crowded].map(|make| profile(make, first, seeds));
    println!("answer      valid    mutated    crowded");
    for number in 0..17 {
        let [sound, changed, crowd] = [0, 1, 2].map(|index| profiles[index].numbers[number]);
        println!("{number:6} {sound:10} {changed:10} {crowd:10}");
    }
    let [_, changed, crowd] = profiles.each_ref().map(|profile| profile.taken);
    println!("names taken: {changed} mutated, {crowd} crowded");
    let faults: u64 = profiles.iter().map(|profile| profile.area_faults).sum();
    println!("areas at fault: {faults}");
}
