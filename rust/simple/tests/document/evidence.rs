//! The evidence file: what the writer writes, and what the check answers to files that are made here byte by byte; decided readings by their numbers.

use crate::{script_with, TRUE};
use simple::evidence::{check, checked, shown, write, Fault, Refusal};
use simple::generate::{damaged, evidence, sized, tangled, valid};
use simple::replay::Break;
use simple::{Answer, MOST_RESPONSE_BYTES, MOST_SCRIPT_BYTES};
use std::collections::HashSet;

/// A ring, and a second way to each word of it: rule 0 of A is B and 1 is x, rule 2 of B is A and 3 is x.
const RING: &str = "(set-logic BV)(synth-fun f ((x Bool)) Bool ((A Bool) (B Bool)) ((A Bool (B x)) (B Bool (A x))))(check-synth)";
/// A response to it.
const X: &str = "((define-fun f ((x Bool)) Bool x))";
/// How many bytes the lengths take.
const LENGTHS: usize = 24;

/// A payload without its zeros: the two lengths and the eight as they are given, and what stands behind them.
fn payload(texts: [u32; 2], counts: [u16; 8], behind: &[&[u8]]) -> Vec<u8> {
    let mut payload = Vec::new();
    for length in texts {
        let bytes = [length, length >> 8, length >> 16, length >> 24];
        payload.extend(bytes.map(|one| one as u8));
    }
    for count in counts {
        payload.extend([count, count >> 8].map(|one| one as u8));
    }
    assert_eq!(payload.len(), LENGTHS);
    payload.extend(behind.concat());
    payload
}

/// The two bytes of a block's sum, by a sum that is reduced at each byte.
fn stored(block: &[u8]) -> [u8; 2] {
    let mut sum = 0_u32;
    for (index, &byte) in block.iter().enumerate() {
        sum = (sum + (index as u32 + 1) * u32::from(byte)) % 65_521;
    }
    [(sum % 256) as u8, (sum / 256) as u8]
}

/// A payload in blocks, filled with zeros.
fn cut(payload: &[u8]) -> Vec<u8> {
    let mut file = Vec::new();
    for at in (0..payload.len()).step_by(510) {
        let mut block = payload[at..payload.len().min(at + 510)].to_vec();
        block.extend(vec![0; 510 - block.len()]);
        let sum = stored(&block);
        file.extend([block, sum.to_vec()].concat());
    }
    file
}

/// The payload of two texts and lists for the first functions.
fn payload_of(script: &str, response: &str, lists: &[&[u16]]) -> Vec<u8> {
    let mut counts = [0; 8];
    let mut rules = Vec::new();
    for (count, list) in counts.iter_mut().zip(lists) {
        *count = list.len() as u16;
        rules.extend(
            list.iter()
                .flat_map(|&rule| [rule as u8, (rule >> 8) as u8]),
        );
    }
    let lengths = [script.len() as u32, response.len() as u32];
    payload(
        lengths,
        counts,
        &[script.as_bytes(), response.as_bytes(), &rules],
    )
}

/// The file of two texts and lists for the first functions.
fn file(script: &str, response: &str, lists: &[&[u16]]) -> Vec<u8> {
    cut(&payload_of(script, response, lists))
}

/// An answer about no text.
fn about_none(number: u8, place: u64) -> Answer {
    Answer {
        number,
        text: 3,
        place,
        ..Answer::default()
    }
}

/// Holds a file to an answer about no text.
fn answers(file: &[u8], number: u8, place: u64) {
    assert_eq!(
        check(file),
        about_none(number, place),
        "{:?}",
        checked(file)
    );
}

/// Holds a file to a refusal at a block.
fn refused(file: &[u8], block: usize, fault: Fault) {
    assert_eq!(checked(file), Err(Refusal::Block(block, fault)));
    answers(file, 21, block as u64);
}

/// Holds the lists of two texts to the answer 0, or 22 at a function.
fn lists(script: &str, response: &str, lists: &[&[u16]], at: Option<u64>) {
    let number = at.map_or(0, |_| 22);
    answers(&file(script, response, lists), number, at.unwrap_or(0));
}

/// A script or a response of so many bytes, the last ones in a comment.
fn padded(text: &str, length: usize) -> String {
    let padding = length - text.len() - 1;
    format!("{text};{}", "c".repeat(padding))
}

/// What the writer gives for an area that is lent with 7 everywhere.
fn written(script: &str, response: &str, length: usize) -> (Answer, usize, Vec<u8>) {
    let mut area = vec![7; length];
    let (answer, length) = write(script.as_bytes(), response.as_bytes(), &mut area);
    (answer, length, area)
}

/// Holds the writer to a file with these lists and weights, in areas of its length and longer ones; the file is accepted.
fn writes(script: &str, response: &str, lists: &[&[u16]], weights: &[u64]) {
    let file = file(script, response, lists);
    let mut expected = about_none(0, 0);
    expected.weights[..weights.len()].copy_from_slice(weights);
    for more in [0, 1, 511, 512, 70_000] {
        let (answer, length, area) = written(script, response, file.len() + more);
        assert_eq!((answer, length), (expected, file.len()));
        let (front, rest) = area.split_at(length);
        assert!(front == file && rest.iter().all(|&byte| byte == 7));
    }
    answers(&file, 0, 0);
}

/// Holds the writer to a refusal of its texts, or of its area; that is as it was lent.
fn writes_nothing(script: &str, response: &str, length: usize, expected: (u8, u8, u64)) {
    let (answer, file, area) = written(script, response, length);
    assert_eq!((answer.number, answer.text, answer.place), expected);
    assert_eq!(
        (answer.second, answer.units, answer.weights),
        (0, 0, [0; 8])
    );
    assert!(file == 0 && area.iter().all(|&byte| byte == 7));
    if answer.number == 17 {
        assert_eq!(answer, about_none(17, length as u64));
    }
}

#[test]
fn lists_that_derive() {
    // E12.1, E12.22: a length is that of a list in rules, low byte first.
    lists(RING, X, &[&[1]], None);
    let bytes = payload_of(RING, X, &[&[1]]);
    assert_eq!(
        (&bytes[8..10], &bytes[bytes.len() - 2..]),
        (&[1, 0][..], &[1, 0][..])
    );
    // E12.2: a list that is not the shown one.
    lists(RING, X, &[&[0, 3]], None);
    let script =
        script_with("(synth-fun g () Bool ((A Bool)) ((A Bool ((and A A) true (Constant Bool)))))");
    let response =
        "((define-fun f () Bool (not true))(define-fun g () Bool (and true (and true false))))";
    lists(&script, response, &[&[1, 0], &[0, 1, 0, 2, 2]], None);
    lists(&script, response, &[&[1, 0], &[0, 2, 0, 1, 2]], None);
}

#[test]
fn lists_that_do_not_derive() {
    let function = Some(0);
    for list in [
        // E12.3: a non-terminal twice at one place.
        &[0, 2, 1][..],
        &[0, 2, 0, 3],
        // E12.4: a rule too many.
        &[1, 1],
        &[0, 3, 3],
        // E12.5: none.
        &[],
        &[0],
        // The rules of another non-terminal, and numbers that no rule has.
        &[3],
        &[0, 1],
        &[4],
        &[257],
        &[65_535],
    ] {
        lists(RING, X, &[list], function);
    }
    // E12.6: an absent function.
    lists(RING, X, &[&[1], &[], &[], &[0]], Some(3));
    lists(RING, X, &[&[1], &[1]], Some(1));
    lists(RING, X, &[&[2], &[1]], function);
    lists(
        RING,
        X,
        &[&[1], &[], &[], &[], &[], &[], &[], &[65_535]],
        Some(7),
    );
    // E12.7: a body without a derivation.
    let none = "((define-fun f () Bool false))";
    for list in [&[][..], &[0], &[1, 0]] {
        lists(&script_with(""), none, &[list], function);
    }
    let second = script_with("(synth-fun g () Bool ((A Bool)) ((A Bool (true))))");
    let both = "((define-fun f () Bool true)(define-fun g () Bool true))";
    lists(&second, both, &[&[0], &[0]], None);
    lists(&second, both, &[&[0], &[]], Some(1));
    lists(&second, both, &[&[0], &[1]], Some(1));
}

#[test]
fn rules_of_another_sort() {
    let script = "(set-logic BV)(synth-fun f ((x (_ BitVec 8)) (y (_ BitVec 4))) Bool ((S Bool) (A (_ BitVec 8)))
        ((S Bool ((= A A))) (A (_ BitVec 8) ((Variable (_ BitVec 8)) (Constant (_ BitVec 8)) #x01))))(check-synth)";
    for (body, list, at) in [
        ("(= x x)", [0, 1, 1], None),
        ("(= y y)", [0, 1, 1], Some(0)),
        ("(= #x12 (_ bv1 8))", [0, 2, 3], None),
        ("(= #x1 (_ bv1 4))", [0, 2, 2], Some(0)),
        ("(= #x1 #b0001)", [0, 3, 3], Some(0)),
        ("(= x #b00000001)", [0, 1, 3], None),
        ("(= x #b00000001)", [0, 1, 1], Some(0)),
        ("(= x #x01)", [0, 2, 2], Some(0)),
    ] {
        let header = "((define-fun f ((x (_ BitVec 8)) (y (_ BitVec 4))) Bool";
        lists(script, &format!("{header} {body}))"), &[&list], at);
    }
}

#[test]
fn why_a_list_does_not_derive() {
    for (list, why) in [
        (&[0, 2][..], Break::Twice(0)),
        (&[0], Break::Ended),
        (&[3], Break::NoRule(3)),
        (&[1, 1], Break::Left),
    ] {
        let refusal = Err(Refusal::List(0, why));
        assert_eq!(checked(&file(RING, X, &[list])), refusal);
    }
    let other = file(&script_with(""), TRUE, &[&[1, 0]]);
    assert_eq!(checked(&other), Err(Refusal::List(0, Break::Word(0))));
    let absent = file(RING, X, &[&[1], &[0]]);
    assert_eq!(checked(&absent), Err(Refusal::Absent(1)));
    let variable = RING.replace("(A x)", "(A (Constant Bool))");
    let constant = file(&variable, X, &[&[0, 3]]);
    assert_eq!(
        checked(&constant),
        Err(Refusal::List(0, Break::Underived(3)))
    );
}

#[test]
fn blocks_that_are_cut_short_or_have_a_wrong_sum() {
    // E12.9: the empty file.
    refused(&[], 0, Fault::Empty);
    let one = file(RING, X, &[&[1]]);
    assert_eq!(one.len(), 512);
    for length in 1..512 {
        refused(&one[..length], 0, Fault::CutShort);
    }
    // E12.10: cut in the last block.
    let two = file(&padded(RING, 600), X, &[&[1]]);
    assert_eq!(two.len(), 1_024);
    for length in [513, 700, 1_023] {
        refused(&two[..length], 1, Fault::CutShort);
    }
    refused(&[&two[..], &[0]].concat(), 2, Fault::CutShort);
    // E12.11: a wrong sum before a cut block.
    let mut wrong = two[..1_000].to_vec();
    wrong[100] += 1;
    refused(&wrong, 0, Fault::Sum);
    // E12.16: a position is that in the block.
    answers(&two, 0, 0);
    // E12.17: a sum plus 65,521, in a file that is accepted with the sum itself.
    let small = small_sum();
    answers(&small, 0, 0);
    let sum = u16::from_le_bytes([small[510], small[511]]);
    let past = (sum + 65_521).to_le_bytes();
    refused(&[&small[..510], &past].concat(), 0, Fault::Sum);
}

/// A sound file of one block whose sum is at most 14, so that it has a second spelling in two bytes.
fn small_sum() -> Vec<u8> {
    let comments =
        (0..1 << 19).map(|number| format!("{RING};{number:0width$}", width = number % 200));
    let mut files = comments.map(|script| file(&script, X, &[&[1]]));
    let small = |file: &Vec<u8>| file[511] == 0 && file[510] < 15;
    files.find(small).expect("a small sum")
}

#[test]
fn a_changed_byte_is_refused() {
    let two = file(&padded(RING, 600), X, &[&[1]]);
    for at in 0..two.len() {
        for change in 1..=255 {
            let mut changed = two.clone();
            changed[at] ^= change;
            refused(&changed, at / 512, Fault::Sum);
        }
    }
}

#[test]
fn lengths_past_the_file() {
    // E12.14, E12.26.
    let behind = [RING.as_bytes(), X.as_bytes(), &[1, 0]];
    let [script, response] = [RING.len() as u32, X.len() as u32];
    let mut first = [0; 8];
    first[0] = 1;
    let lengths = |texts, counts| cut(&payload(texts, counts, &behind));
    answers(&lengths([script, response], first), 0, 0);
    for texts in [
        [script + 510, response],
        [script, 510],
        [u32::MAX, response],
        [script, u32::MAX],
        [u32::MAX, u32::MAX],
        [u32::MAX - 23, 0],
        [u32::MAX - response, response + 1],
    ] {
        refused(&lengths(texts, first), 0, Fault::Lengths);
    }
    for counts in [[65_535; 8], [0, 0, 0, 0, 0, 0, 0, 255], [32_768; 8]] {
        refused(&lengths([script, response], counts), 0, Fault::Lengths);
    }
    // A rule more than the file has room for, and room for it in one more block.
    let exact = file(&padded(RING, 510 - LENGTHS - X.len() - 2), X, &[&[1]]);
    assert_eq!(exact.len(), 512);
    let mut longer = exact[..510].to_vec();
    longer[8] += 1;
    refused(&cut(&longer), 0, Fault::Lengths);
    longer.push(0);
    answers(&cut(&longer), 22, 0);
}

#[test]
fn spare_blocks_and_filling() {
    let payload = payload_of(RING, X, &[&[1]]);
    // E12.12: a spare block of zeros, or of anything.
    let with = |more: &[u8]| cut(&[&payload[..], more].concat());
    let filling = 510 - payload.len();
    refused(&with(&vec![0; filling + 1]), 1, Fault::Spare);
    refused(&with(&vec![0; filling + 1_000]), 1, Fault::Spare);
    let mut more = vec![0; filling];
    more.push(9);
    refused(&with(&more), 1, Fault::Spare);
    // E12.13: a wrongly filled last block, and a spare one.
    more[0] = 1;
    refused(&with(&more), 0, Fault::Filling);
    let mut last = vec![0; filling];
    last[filling - 1] = 1;
    refused(&with(&last), 0, Fault::Filling);
    // E12.15: a payload that ends just at 510.
    let script = padded(RING, 510 - LENGTHS - X.len() - 2);
    let exact = file(&script, X, &[&[1]]);
    assert_eq!(exact.len(), 512);
    answers(&exact, 0, 0);
    writes(&script, X, &[&[1]], &[]);
    refused(&[exact, cut(&[0])].concat(), 1, Fault::Spare);
    let more = file(&padded(RING, script.len() + 1), X, &[&[1]]);
    assert_eq!(more.len(), 1_024);
    answers(&more, 0, 0);
}

#[test]
fn texts_answer_before_lists() {
    let located =
        |script: &str, response: &str, (number, text, place): (u8, u8, u64), there: [u64; 3]| {
            let [line, column, end] = there;
            let expected = Answer {
                number,
                text,
                place,
                end,
                line,
                column,
                ..Answer::default()
            };
            assert_eq!(check(&file(script, response, &[&[9, 9], &[9]])), expected);
            assert_eq!(check(&file(script, response, &[])), expected);
        };
    // E12.8: the response fail.
    located(RING, "fail", (10, 1, 0), [0; 3]);
    located(RING, " infeasible ", (11, 1, 0), [0; 3]);
    // E12.23: line, column and end are those in the text.
    located("0ab", X, (2, 0, 0), [1, 1, 3]);
    located(RING, "\n(\n 0a)", (2, 1, 4), [3, 2, 6]);
    located(RING, "()", (12, 1, 1), [1, 2, 2]);
    located("", "", (5, 0, 0), [1, 1, 0]);
    // E12.18: a script of 65,537 bytes.
    let (script, response) = (
        padded(RING, MOST_SCRIPT_BYTES + 1),
        padded(X, MOST_RESPONSE_BYTES + 1),
    );
    located(&script, &response, (1, 0, 65_537), [0; 3]);
    located(RING, &response, (1, 1, 8_193), [0; 3]);
    let taken = "(set-logic BV)(declare-var x Bool)(declare-var x Bool)";
    let answer = check(&file(taken, X, &[]));
    assert_eq!((answer.number, answer.place, answer.second), (7, 47, 27));
}

#[test]
fn the_writer() {
    writes(RING, X, &[&[1]], &[0]);
    writes(
        &padded(RING, MOST_SCRIPT_BYTES),
        &padded(X, MOST_RESPONSE_BYTES),
        &[&[1]],
        &[0],
    );
    let script = "(set-logic BV)(set-feature :weights true)(synth-fun f () Bool ((A Bool)) ((A Bool ((! true :weight 5) (! (not A) :weight 7)))))
        (synth-fun g () Bool ((A Bool)(B Bool)) ((A Bool ((! true :weight 5) B)) (B Bool ((! true :weight 1)))))(constraint false)(check-synth)";
    let response = "((define-fun f () Bool (not (not true)))(define-fun g () Bool true))";
    writes(script, response, &[&[1, 1, 0], &[1, 2]], &[19, 1]);
    // E12.24: place 0, second 0, text 3, whatever the constraints say.
    let (answer, length, _) = written(script, response, 1_024);
    assert_eq!(
        (answer.text, answer.place, answer.second, answer.units),
        (3, 0, 0, 0)
    );
    assert_eq!(length, 512);
}

#[test]
fn the_writer_refuses() {
    // E12.19, E12.25: the texts come before the area.
    for length in [0, 511, 512] {
        writes_nothing(RING, "()", length, (12, 1, 1));
        writes_nothing("", X, length, (5, 0, 0));
        writes_nothing(
            &padded(RING, MOST_SCRIPT_BYTES + 1),
            X,
            length,
            (1, 0, 65_537),
        );
        writes_nothing(RING, "fail", length, (10, 1, 0));
        // E12.21: no derivation.
        writes_nothing(
            &script_with(""),
            "((define-fun f () Bool false))",
            length,
            (13, 1, 23),
        );
    }
    // E12.20: an area a byte short.
    for length in [0, 1, 511] {
        writes_nothing(RING, X, length, (17, 3, length as u64));
    }
    writes_nothing(&padded(RING, 600), X, 1_023, (17, 3, 1_023));
    let underived = "((define-fun f () Bool true)(define-fun g () Bool\n false))";
    let script = script_with("(synth-fun g () Bool ((A Bool)) ((A Bool (true))))");
    let (answer, ..) = written(&script, underived, 512);
    let place = underived.find("false").expect("the body") as u64;
    assert_eq!((answer.number, answer.place, answer.second), (13, place, 1));
    assert_eq!((answer.line, answer.column, answer.end), (2, 2, place + 5));
}

#[test]
fn what_the_writer_makes_is_accepted() {
    let mut counts = [0; 2];
    for seed in 0..300 {
        for make in [valid, tangled, sized] {
            let case = make(seed);
            let mut area = vec![7; 160_000];
            let (answer, length) = write(&case.script, &case.response, &mut area);
            let made = length > 0;
            assert_eq!(made, answer.number == 0);
            assert_eq!(made, shown(&case.script, &case.response).is_ok());
            assert!(area[length..].iter().all(|&byte| byte == 7));
            if made {
                answers(&area[..length], 0, 0);
            }
            counts[usize::from(made)] += 1;
        }
    }
    assert!(counts[0] > 0 && counts[1] > 600, "{counts:?}");
}

/// What a check came to, without its place.
fn cause(told: Result<(), Refusal>) -> String {
    match told {
        Ok(()) => "accepted".to_string(),
        Err(Refusal::Block(_, fault)) => format!("{fault:?}"),
        Err(Refusal::Texts(answer)) => format!("text {}", answer.text),
        Err(Refusal::List(_, Break::Word(_))) => "Word".to_string(),
        Err(Refusal::List(_, Break::Twice(_))) => "Twice".to_string(),
        Err(Refusal::List(_, Break::NoRule(_))) => "NoRule".to_string(),
        Err(Refusal::List(_, Break::Underived(_))) => "Underived".to_string(),
        Err(Refusal::List(_, other)) => format!("{other:?}"),
        Err(Refusal::Absent(_)) => "Absent".to_string(),
    }
}

#[test]
fn damaged_files_reach_every_refusal() {
    let mut causes = HashSet::new();
    for seed in 0..2_000 {
        for make in [valid, tangled] {
            let case = make(seed);
            let said = evidence(seed, &case.script, &case.response);
            let file = damaged(seed, said.clone());
            assert_eq!(file, damaged(seed, said));
            causes.insert(cause(checked(&file)));
        }
    }
    let expected = [
        "accepted",
        "Empty",
        "CutShort",
        "Sum",
        "Lengths",
        "Spare",
        "Filling",
        "text 0",
        "text 1",
        "Word",
        "Twice",
        "Ended",
        "NoRule",
        "Underived",
        "Left",
        "Absent",
    ];
    for cause in expected {
        assert!(causes.remove(cause), "{cause}");
    }
    assert!(causes.is_empty());
}
