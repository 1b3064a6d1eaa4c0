//! All decided readings: the numbers of each answer, and the area after it.

use crate::cases::{bytes, Case};

/// The text that follows `"name": ` in a line up to the end of its value; the values hold no brackets within brackets.
fn field<'a>(line: &'a str, name: &str) -> &'a str {
    let mark = format!("\"{name}\": ");
    let start = line.find(&mark).expect("the field") + mark.len();
    let value = &line[start..];
    let end = match value.as_bytes()[0] {
        b'[' => value.find(']').expect("a closing bracket") + 1,
        b'"' => value[1..].find('"').expect("a closing quote") + 2,
        _ => value.find([',', '}']).expect("an end"),
    };
    &value[..end]
}

/// The numbers of a bracketed list.
fn numbers(value: &str) -> Vec<u64> {
    let parts = value.trim_matches(['[', ']']).split(',').map(str::trim);
    let parts = parts.filter(|part| !part.is_empty());
    parts.map(|part| part.parse().expect("a number")).collect()
}

/// The case that a line is.
fn case(line: &str) -> Case {
    let number = |name| field(line, name).parse().expect("a number");
    let text = |name| bytes(field(line, name).trim_matches('"'));
    Case {
        name: format!("reading {}", field(line, "item")),
        script: text("script"),
        response: text("response"),
        points: numbers(field(line, "points")),
        budget: number("budget"),
        area_length: number("area_len") as usize,
        answer: answer(line),
    }
}

/// The numbers of the answer, with end, line and column and then the weights where the line has them.
fn answer(line: &str) -> Vec<u64> {
    let mut answer = numbers(field(line, "answer"));
    if line.contains("\"end_line_column\": ") {
        answer.extend(numbers(field(line, "end_line_column")));
    }
    if line.contains("\"weights\": ") {
        answer.extend(numbers(field(line, "weights")));
    }
    answer
}

#[test]
fn all_readings_agree() {
    let path = concat!(env!("CARGO_MANIFEST_DIR"), "/../../tests/readings.jsonl");
    let lines = std::fs::read_to_string(path).expect("the readings");
    let cases: Vec<Case> = lines.lines().map(case).collect();
    let faults = cases.iter().filter_map(|case| case.area().err());
    let faults: Vec<String> = faults.collect();
    assert_eq!(cases.len(), 562);
    assert!(faults.is_empty(), "{}", faults.join("\n"));
}
