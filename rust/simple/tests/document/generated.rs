//! The random cases: the same for the same seed, sound ones sound, and every answer reached by mutations.

use crate::places::assert_located;
use crate::texts::assert_read;
use simple::eval::whole_points;
use simple::generate::{crowded, mutated, noise, sized, tangled, valid, Case};
use simple::operators::{operator, OPERATORS};
use simple::script::Script;
use simple::{check, replay, script, words, Answer, AREA_LENGTH, FIRST_ASSUMPTION};
use std::collections::HashSet;

/// The answer of a case, the area, what the answer carries of its place and the texts' own answer being judged as well.
fn answer(case: &Case) -> Answer {
    let mut area = vec![7; AREA_LENGTH];
    let (script, response) = (&case.script, &case.response);
    let answer = check(script, response, &case.points, case.budget, &mut area);
    let fault = replay::area_fault(script, response, answer.number, &area);
    assert_eq!(fault, None);
    assert_located(&answer, script, response);
    assert_read(&answer, script, response);
    answer
}

/// The number of a case's answer.
fn number(case: &Case) -> u8 {
    answer(case).number
}

#[test]
fn a_seed_gives_one_case() {
    for make in [valid, tangled, mutated, crowded, sized, noise] {
        for seed in 0..30 {
            assert_eq!(make(seed), make(seed));
        }
        assert_ne!(make(1), make(2));
    }
}

#[test]
fn sound_cases_are_evaluated() {
    let mut counts = [0; 17];
    for seed in 0..500 {
        counts[usize::from(number(&valid(seed)))] += 1;
    }
    assert_eq!(counts[0] + counts[14] + counts[15], 500);
    assert!(counts[0] > 250 && counts[14] > 0 && counts[15] > 0);
}

#[test]
fn cases_about_limits_are_at_both_sides() {
    let mut counts = [0; 17];
    for seed in 0..500 {
        counts[usize::from(number(&sized(seed)))] += 1;
    }
    assert!(
        counts[0] > 50 && counts[1] > 0 && counts[4] > 100,
        "{counts:?}"
    );
}

#[test]
fn mutations_reach_every_answer() {
    let mut counts = [0; 17];
    for seed in 0..2_000 {
        counts[usize::from(number(&mutated(seed)))] += 1;
    }
    assert!(counts.iter().all(|&count| count > 0), "{counts:?}");
}

/// The operator whose name a word is.
fn operator_name(word: &[u8]) -> Option<&'static str> {
    let word = std::str::from_utf8(word).ok()?;
    operator(word).map(|one| one.name)
}

/// The operator whose name stands at a place.
fn operator_at(text: &[u8], at: usize) -> Option<&'static str> {
    operator_name(text.get(at..at + simple::word(text, at))?)
}

/// The operators that a text names.
fn named(text: &[u8]) -> HashSet<&'static str> {
    let words = words::cut(text).into_iter();
    words
        .filter_map(|word| operator_name(&text[word]))
        .collect()
}

#[test]
fn scripts_and_responses_use_every_operator() {
    let cases: Vec<Case> = (0..1_000).map(valid).collect();
    let texts: [fn(&Case) -> &Vec<u8>; 2] = [|case| &case.script, |case| &case.response];
    for text in texts {
        let used: HashSet<&str> = cases.iter().flat_map(|case| named(text(case))).collect();
        let missing = OPERATORS.iter().filter(|one| !used.contains(one.name));
        let missing: Vec<&str> = missing.map(|one| one.name).collect();
        assert_eq!(missing, [""; 0]);
    }
}

#[test]
fn mutations_misuse_operators() {
    let [mut as_name, mut as_leaf, mut with_operands] = [(); 3].map(|_| HashSet::new());
    for seed in 0..2_000 {
        let case = mutated(seed);
        let (answer, texts) = (answer(&case), [&case.script, &case.response]);
        let Some(text) = texts.get(usize::from(answer.text)) else {
            continue;
        };
        let place = answer.place as usize;
        let (own, next) = (operator_at(text, place), operator_at(text, place + 1));
        match (answer.number, own, next) {
            (7, Some(name), _) => as_name.insert(name),
            (8, Some(name), _) => as_leaf.insert(name),
            (8, None, Some(name)) => with_operands.insert(name),
            _ => false,
        };
    }
    let counts = [as_name, as_leaf, with_operands].map(|names| names.len());
    assert!(counts.iter().all(|&count| count > 10), "{counts:?}");
}

/// The script of a case without fault.
fn script_of(case: &Case) -> Script {
    script::read(&case.script).expect("a sound script")
}

/// Whether an assumption applies a synthesized function.
fn applies_function(script: &Script) -> bool {
    let mut words = script.assumptions.iter().flat_map(|one| one.term.words());
    words.any(|(_, word)| script.synthesized.iter().any(|one| one.name == word))
}

/// Whether an assumption stands before a constraint, and whether one stands behind one.
fn order(script: &Script) -> [bool; 2] {
    let pairs = script.assumptions.iter().flat_map(|one| {
        let constraints = script.constraints.iter();
        constraints.map(|other| one.place < other.place)
    });
    let before: Vec<bool> = pairs.collect();
    [before.contains(&true), before.contains(&false)]
}

#[test]
fn sound_cases_have_assumptions_of_every_kind() {
    let mut counts = [0; 10];
    for seed in 0..1_000 {
        let case = valid(seed);
        let (answer, script) = (answer(&case), script_of(&case));
        let points = whole_points(&case.points, &script.variables).len() as u64;
        let [before, behind] = order(&script);
        let assumed = !script.assumptions.is_empty();
        let held = assumed && answer.number == 0 && points > 0;
        let ended = assumed && answer.number == 15;
        let first_assumption = FIRST_ASSUMPTION as u64;
        let kinds = [
            !assumed,
            before,
            behind,
            applies_function(&script),
            held && answer.second == points,
            held && answer.second == 0,
            held && answer.second > 0 && answer.second < points,
            ended && answer.second >= first_assumption,
            ended && answer.second < first_assumption,
            assumed && answer.number == 14,
        ];
        for (count, kind) in counts.iter_mut().zip(kinds) {
            *count += u32::from(kind);
        }
    }
    assert!(counts.iter().all(|&count| count > 4), "{counts:?}");
}

#[test]
fn cases_about_limits_have_32_assumptions_and_33() {
    let (mut most, mut past, mut numbers) = (0, 0, HashSet::new());
    for seed in 0..3_000 {
        let case = sized(seed);
        let answer = answer(&case);
        let at = case.script.get(answer.place as usize..).unwrap_or(&[]);
        past += u32::from(answer.number == 4 && at.starts_with(b"(assume"));
        if matches!(answer.number, 0 | 14 | 15) {
            most += u32::from(script_of(&case).assumptions.len() == 32);
        }
        if answer.number == 15 && answer.second >= FIRST_ASSUMPTION as u64 {
            numbers.insert(answer.second);
        }
    }
    assert!(
        most > 5 && past > 5 && numbers.len() > 2,
        "{most} {past} {numbers:?}"
    );
}

#[test]
fn mutations_misuse_assume() {
    let mut found = HashSet::new();
    let cases = (0..4_000).flat_map(|seed| [mutated(seed), crowded(seed)]);
    for case in cases {
        let (answer, texts) = (answer(&case), [&case.script, &case.response]);
        let Some(text) = texts.get(usize::from(answer.text)) else {
            continue;
        };
        let place = answer.place as usize;
        let word = |at: usize| text.get(at..at + simple::word(text, at));
        if [word(place), word(place + 1)].contains(&Some(b"assume")) {
            found.insert((answer.text, answer.number));
        }
    }
    for expected in [(0, 4), (0, 5), (0, 6), (0, 7), (1, 5), (1, 12)] {
        assert!(found.contains(&expected), "{expected:?} of {found:?}");
    }
}

/// Of which kinds a place of a text is, so that a wrong line, column or end of it shows.
fn place_kinds(text: &[u8], place: usize) -> [bool; 7] {
    let before = &text[..place];
    let mut lines = before.rsplit(|&byte| byte == b'\n');
    let line = lines.next().expect("a line");
    let ended = place == text.len();
    [
        lines.next().is_some(),
        line.contains(&b'\r'),
        line.contains(&b'\t'),
        line.iter().any(|&byte| byte > 127),
        ended && text.ends_with(b"\n"),
        ended && !text.ends_with(b"\n"),
        !ended && place + simple::word(text, place) == text.len(),
    ]
}

#[test]
fn faults_are_at_places_of_every_kind() {
    let mut counts = [[0; 7]; 2];
    for seed in 0..1_000 {
        for make in [mutated, crowded, sized, noise] {
            let case = make(seed);
            let (answer, texts) = (answer(&case), [&case.script, &case.response]);
            if answer.line == 0 {
                continue;
            }
            let text = usize::from(answer.text);
            let kinds = place_kinds(texts[text], answer.place as usize);
            for (count, kind) in counts[text].iter_mut().zip(kinds) {
                *count += u32::from(kind);
            }
        }
    }
    assert!(
        counts.iter().flatten().all(|&count| count > 5),
        "{counts:?}"
    );
}

#[test]
fn texts_end_with_and_without_the_end_of_a_line() {
    for make in [valid, tangled, mutated, crowded, sized, noise] {
        let cases: Vec<Case> = (0..100).map(make).collect();
        let texts: [fn(&Case) -> &Vec<u8>; 2] = [|case| &case.script, |case| &case.response];
        for text in texts {
            let ended = cases.iter().filter(|case| text(case).ends_with(b"\n"));
            assert!((15..=85).contains(&ended.count()));
        }
    }
}
