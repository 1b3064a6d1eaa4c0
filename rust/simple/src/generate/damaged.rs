//! Evidence files that no writer makes: other lists, lengths, filling or blocks than it would write, bytes that are changed, and files that are cut.

use super::random::Random;
use crate::evidence::{blocks, sum, Evidence, BLOCK, BLOCK_PAYLOAD, MODULUS};
use crate::grammar::{derivation, Form, Grammar, Rule};
use crate::operators::Sort;
use crate::script::Synthesized;
use crate::steps::width;
use crate::terms::{literal_sort, operands};
use crate::tree::Tree;
use crate::{told, MOST_SYNTHESIZED};

/// How many bytes of a payload the lengths of the texts take.
const TEXT_LENGTHS: usize = 8;
/// How many bytes all lengths take.
const LENGTHS: usize = TEXT_LENGTHS + 2 * MOST_SYNTHESIZED;
/// The least sum that does not fit two bytes once 65,521 is added.
const SMALL: u64 = 65_536 - MODULUS;
/// The most rules of a list that is made up.
const MOST_RULES: usize = 6;

/// What a file says of two texts, as the writer has it where it writes one; else bodies without a derivation have a list that nearly derives them or is made up, and
/// texts that are refused lists that are made up. Some scripts have white space behind them with which the payload just fills its blocks, or nearly.
pub fn evidence(seed: u64, script: &[u8], response: &[u8]) -> Evidence {
    let mut random = Random::new(seed.rotate_left(40));
    let mut evidence = Evidence {
        script: script.to_vec(),
        response: response.to_vec(),
        lists: Default::default(),
    };
    match functions_and_bodies(&evidence) {
        Some(pairs) => {
            for (list, (function, body)) in evidence.lists.iter_mut().zip(&pairs) {
                *list = list_of(&mut random, function, body);
            }
        }
        None => {
            let count = random.pick(&[0, 1, 1, 1, 2, 3, MOST_SYNTHESIZED]);
            for list in &mut evidence.lists[..count] {
                *list = rules(&mut random);
            }
        }
    }
    if random.percent(5) {
        let wanted = random.pick(&[0, 0, 1, BLOCK_PAYLOAD - 1]);
        let over = evidence.payload().len() % BLOCK_PAYLOAD;
        let more = (wanted + BLOCK_PAYLOAD - over) % BLOCK_PAYLOAD;
        evidence.script.extend(vec![b' '; more]);
    }
    evidence
}

/// The list of a body: its least derivation, one that nearly derives it, or one that is made up.
fn list_of(random: &mut Random, function: &Synthesized, body: &Tree) -> Vec<u16> {
    match derivation(&function.grammar, &function.arguments, body) {
        Some(least) => least.rules,
        None => nearly(function, body).unwrap_or_else(|| rules(random)),
    }
}

/// The list that a body would have if the rules for literals and for arguments were of any sort.
fn nearly(function: &Synthesized, body: &Tree) -> Option<Vec<u16>> {
    let mut grammar = function.grammar.clone();
    let mut numbers: Vec<u16> = (0..grammar.rules.len() as u16).collect();
    for (number, rule) in (0..).zip(&function.grammar.rules) {
        for form in of_any_sort(&rule.form, function, body) {
            let rule = rule.clone();
            grammar.rules.push(Rule { form, ..rule });
            numbers.push(number);
        }
    }
    let found = derivation(&grammar, &function.arguments, body)?.rules;
    let found = found.iter().map(|&rule| numbers[usize::from(rule)]);
    Some(found.collect())
}

/// A rule for literals or for arguments of each sort that a literal of the body or an argument has.
fn of_any_sort(form: &Form, function: &Synthesized, body: &Tree) -> Vec<Form> {
    match form {
        Form::Constant(_) => {
            let mut sorts = literal_sorts(body);
            sorts.sort_by_key(|&sort| width(sort));
            sorts.dedup();
            sorts.into_iter().map(Form::Constant).collect()
        }
        Form::Variable(_) => {
            let arguments = function.arguments.iter();
            arguments.map(|one| Form::Variable(one.sort)).collect()
        }
        Form::Term(_) => Vec::new(),
    }
}

/// The sorts of the literals of a body.
fn literal_sorts(body: &Tree) -> Vec<Sort> {
    let own = literal_sort(body).into_iter();
    let inner = operands(body).iter().flat_map(literal_sorts);
    own.chain(inner).collect()
}

/// A file that says this, damaged at up to three places: in its lists, in its payload, the sums put right, or in its blocks.
pub fn damaged(seed: u64, mut evidence: Evidence) -> Vec<u8> {
    let mut random = Random::new(!seed.rotate_left(40));
    if random.percent(6) {
        return past_sum(&mut random, evidence);
    }
    let mut times = [0; 3];
    for _ in 0..random.pick(&[1, 1, 1, 1, 1, 2, 2, 3]) {
        times[random.pick(&[0, 0, 0, 0, 1, 1, 1, 2, 2])] += 1;
    }
    let [in_lists, in_payload, in_blocks] = times;
    for _ in 0..in_lists {
        change_lists(&mut random, &mut evidence);
    }
    let mut payload = evidence.payload();
    let length = payload.len();
    for _ in 0..in_payload {
        change_payload(&mut random, &mut payload, length);
    }
    let mut file = blocks(&payload);
    for _ in 0..in_blocks {
        change_file(&mut random, &mut file);
    }
    file
}

/// A list that is made up.
fn rules(random: &mut Random) -> Vec<u16> {
    let length = random.below(MOST_RULES + 1);
    (0..length).map(|_| rule(random)).collect()
}

/// A number that may be a rule's.
fn rule(random: &mut Random) -> u16 {
    let any = random.number() as u16;
    random.pick(&[0, 0, 1, 1, 2, 3, any % 8, any % 128, any % 256, any])
}

/// Changes the list of a function, mostly of one that the script has.
fn change_lists(random: &mut Random, evidence: &mut Evidence) {
    let used = evidence
        .lists
        .iter()
        .filter(|list| !list.is_empty())
        .count();
    let function = random.below(used.max(1));
    match random.below(10) {
        0 => {
            let absent = random.between(used.min(MOST_SYNTHESIZED - 1), MOST_SYNTHESIZED - 1);
            evidence.lists[absent].push(rule(random));
        }
        1 => evidence
            .lists
            .swap(function, random.below(MOST_SYNTHESIZED)),
        2 | 3 => derive_otherwise(random, evidence, function),
        4 | 5 => go_round(random, evidence, function),
        6 => exchange_rule(random, evidence, function),
        _ => change_list(random, &mut evidence.lists[function]),
    }
}

/// Changes a list at one place.
fn change_list(random: &mut Random, list: &mut Vec<u16>) {
    if list.is_empty() {
        *list = rules(random);
        return;
    }
    let at = random.below(list.len());
    match random.below(9) {
        0 => list[at] = rule(random),
        1 => list[at] = list[at].wrapping_add(1),
        2 => list[at] = list[at].wrapping_sub(1),
        3 => list.push(rule(random)),
        4 => list.insert(at, rule(random)),
        5 => list.truncate(list.len() - 1),
        6 => drop(list.remove(at)),
        7 => list[at] = list[at].wrapping_add(256),
        _ => list.clear(),
    }
}

/// The functions of the script with their bodies, where the texts are sound.
fn functions_and_bodies(evidence: &Evidence) -> Option<Vec<(Synthesized, Tree)>> {
    let (script, bodies) = told(&evidence.script, &evidence.response).ok()?;
    Some(script.synthesized.into_iter().zip(bodies).collect())
}

/// The function of a number with its body, where the texts are sound and have it.
fn function_and_body(evidence: &Evidence, function: usize) -> Option<(Synthesized, Tree)> {
    functions_and_bodies(evidence)?.into_iter().nth(function)
}

/// Puts the least list by other weights in the place of a function's list: mostly another derivation, where the body has several.
fn derive_otherwise(random: &mut Random, evidence: &mut Evidence, function: usize) {
    let Some((mut synthesized, body)) = function_and_body(evidence, function) else {
        return;
    };
    for rule in &mut synthesized.grammar.rules {
        rule.weight = random.pick(&[0, 1, 5, 25]);
    }
    if let Some(other) = derivation(&synthesized.grammar, &synthesized.arguments, &body) {
        evidence.lists[function] = other.rules;
    }
}

/// Puts another rule of the same words in the place of one of a function's list, whichever non-terminal it is of, where the grammar has one.
fn exchange_rule(random: &mut Random, evidence: &mut Evidence, function: usize) {
    let Some((Synthesized { grammar, .. }, _)) = function_and_body(evidence, function) else {
        return;
    };
    let words: Vec<String> = grammar
        .rules
        .iter()
        .map(|rule| rule.form.to_string())
        .collect();
    let list = &mut evidence.lists[function];
    let mut pairs = Vec::new();
    for (at, &used) in list.iter().enumerate() {
        let same = |&other: &usize| words.get(usize::from(used)) == Some(&words[other]);
        let others = (0..words.len()).filter(same).map(|other| other as u16);
        pairs.extend(
            others
                .filter(|&other| other != used)
                .map(|other| (at, other)),
        );
    }
    if !pairs.is_empty() {
        let (at, other) = random.pick(&pairs);
        list[at] = other;
    }
}

/// Goes once round a ring of non-terminals at some place of a function's list, where the grammar has one there.
fn go_round(random: &mut Random, evidence: &mut Evidence, function: usize) {
    let Some((Synthesized { grammar, .. }, _)) = function_and_body(evidence, function) else {
        return;
    };
    let list = &mut evidence.lists[function];
    let ring = |at: usize| {
        let rule = grammar.rules.get(usize::from(list[at]))?;
        Some((at, ring(&grammar, rule.nonterminal)?))
    };
    let rings: Vec<(usize, Vec<u16>)> = (0..list.len()).filter_map(ring).collect();
    if !rings.is_empty() {
        let (at, ring) = random.pick(&rings);
        list.splice(at..at, ring);
    }
}

/// The rules of a shortest way from a non-terminal to itself, each of them a non-terminal alone.
fn ring(grammar: &Grammar, from: usize) -> Option<Vec<u16>> {
    let mut ways = vec![(from, Vec::new())];
    let mut seen = vec![false; grammar.nonterminals.len()];
    let mut next = 0;
    while let Some((at, way)) = ways.get(next).cloned() {
        for (number, to) in chains(grammar, at) {
            let longer = [&way[..], &[number]].concat();
            if to == from {
                return Some(longer);
            }
            if !std::mem::replace(&mut seen[to], true) {
                ways.push((to, longer));
            }
        }
        next += 1;
    }
    None
}

/// The rules of a non-terminal that are a non-terminal alone, with that.
fn chains(grammar: &Grammar, from: usize) -> Vec<(u16, usize)> {
    let rules = (0..).zip(&grammar.rules);
    let own = rules.filter(|(_, rule)| rule.nonterminal == from);
    let chains = own.filter_map(|(number, rule)| match &rule.form {
        Form::Term(term) => Some((number, grammar.nonterminal(term)?)),
        _ => None,
    });
    chains.collect()
}

/// Changes a payload that says something up to a length: a length, a byte, its filling, blocks behind it, or both of these.
fn change_payload(random: &mut Random, payload: &mut Vec<u8>, length: usize) {
    let filled = length.div_ceil(BLOCK_PAYLOAD) * BLOCK_PAYLOAD;
    match random.below(8) {
        0 | 1 => change_text_lengths(random, payload),
        2 | 3 => change_list_length(random, payload),
        4 => {
            let at = random.below(length);
            payload[at] = random.number() as u8;
        }
        behind => {
            payload.resize(payload.len().max(filled), 0);
            if behind < 7 && length < filled {
                let any = random.between(length, filled - 1);
                let at = random.pick(&[length, filled - 1, any]);
                payload[at] = random.pick(&[1, 128, 255]);
            }
            if behind > 5 {
                let more = [1, BLOCK_PAYLOAD, BLOCK_PAYLOAD + 1, 2 * BLOCK_PAYLOAD];
                let byte = random.pick(&[0, 0, 0, 1]);
                payload.resize(payload.len() + random.pick(&more), byte);
            }
        }
    }
}

/// Changes the length of a text, or moves the end of the script.
fn change_text_lengths(random: &mut Random, payload: &mut [u8]) {
    let (low, high) = payload[..TEXT_LENGTHS].split_at_mut(TEXT_LENGTHS / 2);
    let add = |bytes: &mut [u8], more: u32| {
        let length = u32::from_le_bytes(bytes.try_into().expect("four bytes"));
        bytes.copy_from_slice(&length.wrapping_add(more).to_le_bytes());
    };
    let minus = |number: u32| number.wrapping_neg();
    let any = random.number() as u32;
    let more = random.pick(&[
        1,
        minus(1),
        2,
        minus(2),
        510,
        1 << 16,
        1 << 31,
        minus(600),
        any,
    ]);
    match random.below(4) {
        0 => add(low, more),
        1 => add(high, more),
        2 => low.copy_from_slice(&[255; 4]),
        _ => {
            add(low, more);
            add(high, minus(more));
        }
    }
}

/// Changes the length of a list.
fn change_list_length(random: &mut Random, payload: &mut [u8]) {
    let at = TEXT_LENGTHS + 2 * random.pick(&[0, 0, 0, 1, 1, 2, 7]);
    let length = u16::from_le_bytes([payload[at], payload[at + 1]]);
    let any = random.number() as u16;
    let other = random.pick(&[
        length.wrapping_add(1),
        length.wrapping_sub(1),
        length.wrapping_add(2),
        length.swap_bytes(),
        2 * (length % 4_096),
        65_535,
        any,
    ]);
    payload[at..at + 2].copy_from_slice(&other.to_le_bytes());
}

/// Changes a file in its bytes, or in its blocks.
fn change_file(random: &mut Random, file: &mut Vec<u8>) {
    let length = file.len();
    let blocks = (length / BLOCK).max(1);
    match random.below(10) {
        _ if length == 0 => file.push(0),
        0 | 1 => change_byte(random, file),
        2 => file.truncate(random.below(length)),
        3 => file.truncate(BLOCK * random.below(blocks) + random.pick(&[0, 1, 510, 511])),
        4 => {
            change_byte(random, file);
            file.truncate(random.between(length / 2, length - 1));
        }
        5 => file.truncate(BLOCK * random.below(blocks)),
        6 => file.resize(length + random.between(1, BLOCK - 1), 0),
        7 => file.resize(length + BLOCK, random.pick(&[0, 0, 1])),
        8 => {
            let [from, to] = [0; 2].map(|_| BLOCK * random.below(blocks));
            for index in 0..BLOCK.min(length - from.max(to)) {
                file.swap(from + index, to + index);
            }
        }
        _ => file.clear(),
    }
}

/// Changes a byte of a file that is not empty, often one of a sum.
fn change_byte(random: &mut Random, file: &mut [u8]) {
    let last = file.len() - 1;
    let any = random.below(file.len());
    let held = any / BLOCK * BLOCK + random.pick(&[510, 511]);
    let at = random.pick(&[any, any, held.min(last)]);
    file[at] ^= random.between(1, 255) as u8;
}

/// A file that holds the sum of a block plus 65,521, where a comment behind the script can make the sum small enough; else with the comment alone.
fn past_sum(random: &mut Random, mut evidence: Evidence) -> Vec<u8> {
    let comment = vec![b'c'; random.below(400)];
    evidence.script.extend(b"\n;");
    evidence.script.extend(comment);
    evidence.script.extend([0; 2]);
    let payload = evidence.payload();
    let at = LENGTHS + evidence.script.len() - 2;
    let mut file = blocks(&payload);
    let start = at / BLOCK_PAYLOAD * BLOCK;
    let within = at % BLOCK_PAYLOAD;
    let block = &mut file[start..start + BLOCK];
    if within + 1 < BLOCK_PAYLOAD {
        if let Some(bytes) = small_sum(u64::from(sum(&block[..BLOCK_PAYLOAD])), within as u64 + 1) {
            block[within..within + 2].copy_from_slice(&bytes);
            let past = sum(&block[..BLOCK_PAYLOAD]) + MODULUS as u16;
            block[BLOCK_PAYLOAD..].copy_from_slice(&past.to_le_bytes());
        }
    }
    file
}

/// Two bytes of a comment that, at a position and the next one, make a sum so small that it fits two bytes with 65,521 added.
fn small_sum(sum: u64, position: u64) -> Option<[u8; 2]> {
    let bytes = || (0..=255).filter(|byte| ![b'\n', b'\r'].contains(byte));
    let mut pairs = bytes().flat_map(|first| bytes().map(move |second| [first, second]));
    pairs.find(|&[first, second]| {
        let more = position * u64::from(first) + (position + 1) * u64::from(second);
        (sum + more) % MODULUS < SMALL
    })
}
