//! All records of the program `test_vectors`: the numbers of each answer, and the lists shown after it.

use crate::cases::{bytes, Case};
use crate::shown;
use simple::AREA_LENGTH;

/// The lines of a file of the program.
fn lines(name: &str) -> Vec<String> {
    let crates = concat!(env!("CARGO_MANIFEST_DIR"), "/../../crates");
    let path = format!("{crates}/test_vectors/{name}");
    let text = std::fs::read_to_string(path).expect("the records");
    text.lines().map(str::to_string).collect()
}

/// A field of a record, where `-` stands for nothing.
fn field(text: &str) -> &str {
    text.trim_start_matches('-')
}

/// A number in hex.
fn number(digits: &str) -> u64 {
    u64::from_str_radix(digits, 16).expect("hex digits")
}

/// The case of a record, and what is stored of its area.
fn record(given: &str, stored: &str) -> (Case, String) {
    let given: Vec<&str> = given.split(' ').collect();
    let (name, answer) = stored.split_once(" script ").expect("a name");
    assert_eq!(given[0], name);
    let (_, answer) = answer.split_once(" answer ").expect("an answer");
    let (answer, area) = answer.split_once(" area ").expect("an area");
    let numbers = answer.split(' ').map(str::parse);
    let numbers: Result<Vec<u64>, _> = numbers.collect();
    let points = field(given[3]).split(',').filter(|part| !part.is_empty());
    let case = Case {
        name: name.to_string(),
        script: bytes(field(given[1])),
        response: bytes(field(given[2])),
        points: points.map(number).collect(),
        budget: number(given[4]),
        area_length: number(given[5]) as usize,
        answer: numbers.expect("numbers"),
    };
    (case, area.to_string())
}

/// The numbers of a list as they are stored.
fn joined(list: Vec<u16>) -> String {
    let numbers: Vec<String> = list.iter().map(u16::to_string).collect();
    numbers.join(",")
}

/// What is to be stored of an area that is as it should be.
fn written(area: &[u16]) -> String {
    if area.len() != AREA_LENGTH {
        return "unchanged".to_string();
    }
    let lists = (0..8).map(|function| shown(area, function));
    let lists = lists.take_while(|list| !list.is_empty()).map(joined);
    let lists: Vec<String> = lists.collect();
    if lists.is_empty() {
        "blank".to_string()
    } else {
        lists.join("/")
    }
}

/// What a record shows to be wrong, if anything.
fn fault((case, stored): &(Case, String)) -> Option<String> {
    match case.area() {
        Err(fault) => Some(fault),
        Ok(area) if written(&area) != *stored => Some(format!("{}: another area", case.name)),
        Ok(_) => None,
    }
}

#[test]
fn all_vectors_agree() {
    let (given, stored) = (lines("stdin"), lines("stdout"));
    assert_eq!(given.len(), stored.len());
    let records = given.iter().zip(&stored);
    let records = records.map(|(given, stored)| record(given, stored));
    let faults: Vec<String> = records.filter_map(|one| fault(&one)).collect();
    assert!(faults.is_empty(), "{}", faults.join("\n"));
}
