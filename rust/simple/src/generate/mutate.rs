//! Mutations of a draft, word by word, tree by tree and command by command, and of a text, byte by byte.

use super::draft::{attributes, literal, sort_words, spelt, weighed, words, Draft};
use super::noise::tree;
use super::random::Random;
use crate::eval::{literal_value, Value};
use crate::operators::{operator, Sort, OPERATORS};
use crate::terms::{CARRIED_COMMANDS, OTHER_COMMANDS, OTHER_RESERVED};
use crate::FIRST_ASSUMPTION;
use std::collections::BTreeSet;
use std::ops::Range;

/// Words that tend to break a rule wherever they stand.
const WORDS: &str = "( ) 0 1 8 64 65 999999999 1000000000 00 07 #x #b2 #xG #xAB #xab #b1
    #x00000000000000000 true false Bool BitVec _ ! let exists forall Constant Variable extract
    and not ite bvadd concat bvult = set-logic check-synth assume define-fun synth-fun declare-var
    constraint define-fun-rec BV LIA Int x y A B f nosuch \"s |q| :k a'b é -5 or xor => distinct
    bv bv0 bv5 bv05 bv256 bv111111111111111111111 bvsl bvslte bvnand :weight :weights :weights2
    set-feature 65535 65536";

/// Trees that tend to break a rule wherever they stand.
const TREES: [&str; 50] = [
    "( )",
    "( true )",
    "( x )",
    "( let ( ( x true ) ) x )",
    "( ! true )",
    "( forall ( ( x Bool ) ) true )",
    "( _ bv1 8 )",
    "( _ )",
    "( _ BitVec 8 )",
    "( _ BitVec 0 )",
    "( _ BitVec 65 )",
    "( _ BitVec x )",
    "( _ extract 3 0 )",
    "( ( _ extract 0 0 ) #x0 )",
    "( ( _ extract 0 1 ) #x0 )",
    "( Constant Bool )",
    "( Variable Bool )",
    "( Constant x )",
    "( ( _ extract 4 0 ) #x0 )",
    "( ( _ extract 4 4 ) #x0 )",
    "( concat #x0000000000000000 #b0 )",
    "( concat #x000000000000000 #b0000 )",
    "( Variable ( _ BitVec 8 ) )",
    "( Constant ( _ BitVec 65 ) )",
    "( concat #x00000000 #x000000001 )",
    "( bvadd #x00 #x0 )",
    "( and true )",
    "( and true true true )",
    "( bvand #x00 #x00 #x00 )",
    "( = #x00 #x00 #x0 )",
    "( distinct true true 5 )",
    "( bv5 true )",
    "( bvsdiv #x00 #x0 )",
    "( bvsrem #x00 )",
    "( bvslt #x00 #x00 #x00 )",
    "( bvsge true true )",
    "( bvashr )",
    "( bvnand #x00 #x00 )",
    "( ! true :weight 1 )",
    "( ! true :weight 65536 )",
    "( ! true :weight 1 :weight 2 )",
    "( ! true :weight )",
    "( ! true :weight true )",
    "( ! true :weight 1 2 )",
    "( ! true :weight :weight 3 )",
    "( ! true :weights 3 )",
    "( ! :weight 1 )",
    "( ! ( Constant Bool ) :weight 1 )",
    "( ! ( ! true :weight 1 ) :weight 2 )",
    "( :weight 1 )",
];

/// What may stand in the place of `true` or behind it where the feature is set.
const FEATURES: [&str; 9] = [
    ":weights false",
    ":weights x",
    ":weights 1",
    ":weights",
    "",
    ":weight true",
    ":weights2 true",
    ":weights true true",
    ":weights true",
];

/// Lists that are nearly a constant `(_ bvN n)`, and such a constant where it may not stand.
const NEAR_CONSTANTS: [&str; 14] = [
    "( _ bv 8 )",
    "( _ bv05 8 )",
    "( _ bv00 8 )",
    "( _ bv5x 8 )",
    "( _ Bv5 8 )",
    "( _ bv5 )",
    "( _ bv5 x )",
    "( _ bv5 #x8 )",
    "( _ bv5 8 8 )",
    "( _ bv5 ( 8 ) )",
    "( ( _ bv5 8 ) true )",
    "( ( _ bv5 8 ) )",
    "( bv5 8 )",
    "( Constant ( _ bv5 8 ) )",
];

/// Commands to be put in.
const COMMANDS: [&str; 25] = [
    "( set-logic BV )",
    "( set-feature :weights true )",
    "( set-feature :weights false )",
    "( set-logic LIA )",
    "( declare-var w Bool )",
    "( declare-var w ( _ BitVec 4 ) )",
    "( constraint true )",
    "( constraint false )",
    "( check-synth )",
    "( assume true )",
    "( assume false )",
    "( assume )",
    "( assume true true )",
    "( assume #x00 )",
    "( assume assume )",
    "( assume ( assume true ) )",
    "( assume ( let ( ( x true ) ) x ) )",
    "( oracle-assume ( ) ( ) true n )",
    "( declare-sort S 0 )",
    "( foo )",
    "( synth-fun k ( ) Bool )",
    "( synth-fun k ( ) Bool ( ( A Bool ) ) ( ( A Bool ( A ) ) ) )",
    "( synth-fun k ( ) Bool ( ( A Bool ) ) ( ( A Bool ( A true ) ) ) )",
    "( define-fun k ( ) Bool true )",
    "stray",
];

/// The whole responses that are no list of functions.
const RESPONSES: [&str; 6] = [
    "fail",
    "infeasible",
    "fail fail",
    "( fail )",
    "( )",
    "unknown",
];

/// One of the words that tend to break a rule.
pub fn odd_word(random: &mut Random) -> String {
    match random.below(10) {
        0 => random.pick(&OTHER_COMMANDS).to_string(),
        1 => operator_name(random),
        _ => random.pick(&words(WORDS)),
    }
}

/// The name of one of the operators.
fn operator_name(random: &mut Random) -> String {
    OPERATORS[random.below(OPERATORS.len())].name.to_string()
}

/// A tree that tends to break a rule, or one at random.
fn odd_tree(random: &mut Random) -> Vec<String> {
    match random.below(24) {
        0..=10 => words(random.pick(&TREES)),
        11..=15 => odd_constant(random),
        16..=19 => odd_application(random),
        _ => words(&tree(random, 3)),
    }
}

/// An operator on one to three literals, mostly of one sort, which it may take or not.
fn odd_application(random: &mut Random) -> Vec<String> {
    let sorts = [1, 8, 64].map(Sort::BitVec);
    let (name, sort) = (operator_name(random), random.pick(&sorts));
    let mut application = vec!["(".to_string(), name];
    for _ in 0..random.pick(&[1, 2, 2, 3]) {
        let other = random.pick(&[sort, sort, sort, sort, Sort::Bool, Sort::BitVec(8)]);
        application.extend(literal(random, other));
    }
    application.extend(words(")"));
    application
}

/// A constant about its bounds, or nearly one.
fn odd_constant(random: &mut Random) -> Vec<String> {
    let width = random.pick(&[0, 1, 8, 8, 32, 63, 64, 64, 65]);
    let digits = match random.below(4) {
        0 => return words(random.pick(&NEAR_CONSTANTS)),
        1 => random.pick(&["1", "9"]).repeat(random.between(19, 21)),
        2 if random.percent(20) => "1".repeat(random.between(61, 64)),
        _ => ((1_u128 << width) + random.below(3) as u128)
            .saturating_sub(2)
            .to_string(),
    };
    words(&format!("( _ bv{digits} {width} )"))
}

/// One of the reserved words.
fn reserved_word(random: &mut Random) -> String {
    let operators = OPERATORS.iter().map(|one| one.name);
    let commands = CARRIED_COMMANDS.into_iter().chain(OTHER_COMMANDS);
    let all = operators.chain(commands).chain(OTHER_RESERVED);
    let all: Vec<&str> = all.collect();
    random.pick(&all).to_string()
}

/// Changes a draft in one place.
pub fn mutate(random: &mut Random, draft: &mut Draft) {
    match random.below(42) {
        38 => mutate_feature(random, &mut draft.script),
        39 | 40 => mutate_weight(random, &mut draft.script),
        0 | 1 => mutate_points(random, &mut draft.points),
        2 => draft.response = words(random.pick(&RESPONSES)),
        3 => mutate_operator(random, &mut draft.response),
        4 => mutate_literal(random, &mut draft.response),
        5 => borrow_name(random, draft),
        6 | 7 => rename_everywhere(random, draft),
        8..=12 => mutate_words(random, &mut draft.response),
        13 | 14 => regroup(random, &mut draft.response),
        15 | 16 => mutate_literal(random, &mut draft.script),
        17..=20 => mutate_operands(random, &mut draft.script),
        21 => cut_off(random, draft),
        22..=24 | 41 => take_name(random, &mut draft.script),
        25..=27 => starve(random, &mut draft.script),
        _ => mutate_words(random, &mut draft.script),
    }
}

/// Ends the script or the response early.
fn cut_off(random: &mut Random, draft: &mut Draft) {
    let text = match random.percent(50) {
        true => &mut draft.script,
        false => &mut draft.response,
    };
    text.truncate(random.below(text.len() + 1));
}

/// Replaces a name of the response by one of the script.
fn borrow_name(random: &mut Random, draft: &mut Draft) {
    let (own, others) = (names(&draft.response), names(&draft.script));
    if !own.is_empty() && !others.is_empty() {
        draft.response[random.pick(&own)] = draft.script[random.pick(&others)].clone();
    }
}

/// Replaces a name wherever it stands in both texts, by another one or a reserved word.
fn rename_everywhere(random: &mut Random, draft: &mut Draft) {
    let (from, to) = match renaming(random, &draft.script) {
        Some(renaming) => renaming,
        None => return,
    };
    rename(&mut draft.script, &from, &to);
    rename(&mut draft.response, &from, &to);
}

/// Negates the constraint or assumption of a number.
pub fn negate(script: &mut Vec<String>, number: usize) {
    let (head, index) = match number.checked_sub(FIRST_ASSUMPTION) {
        None => ("constraint", number),
        Some(index) => ("assume", index),
    };
    let mut places = commands(script);
    places.retain(|command| script[command.start + 1] == head);
    let place = &places[index];
    insert(script, place.end - 1, words(")"));
    insert(script, place.start + 2, words("( not"));
}

/// Changes one command of the script or the response in several places, mostly so that its shape stays.
pub fn crowd(random: &mut Random, draft: &mut Draft) {
    let text = match random.percent(70) {
        true => &mut draft.script,
        false => &mut draft.response,
    };
    let places = commands(text);
    if places.is_empty() {
        return;
    }
    let place = random.pick(&places);
    let mut command = text[place.clone()].to_vec();
    for _ in 0..random.between(2, 6) {
        match random.percent(10) {
            true => mutate_words(random, &mut command),
            false => mutate_within_shape(random, &mut command),
        }
    }
    replace(text, place, command);
}

/// Adds, removes or changes point numbers.
fn mutate_points(random: &mut Random, points: &mut Vec<u64>) {
    match random.below(7) {
        0 => points.clear(),
        1 => points.push(random.number()),
        2 if !points.is_empty() => points.truncate(random.below(points.len())),
        3 if random.percent(20) => points.resize(1_025, 0),
        _ if points.is_empty() => points.push(0),
        _ => {
            for _ in 0..random.between(1, 2) {
                let index = random.below(points.len());
                points[index] = other_number(random, points[index]);
            }
        }
    }
}

/// A number for a point in place of another one.
fn other_number(random: &mut Random, number: u64) -> u64 {
    match random.below(3) {
        0 => random.number(),
        1 => 1 << random.below(64),
        _ => number.wrapping_add(1),
    }
}

/// Changes a list of words in one place.
fn mutate_words(random: &mut Random, words: &mut Vec<String>) {
    if words.is_empty() {
        return;
    }
    match random.below(20) {
        0 => mutate_one_word(random, words),
        1 | 17 => mutate_command(random, words),
        2 => mutate_sort(random, words),
        3 => mutate_literal(random, words),
        4 => mutate_name(random, words),
        5 => rename_in_command(random, words),
        6 => mutate_count(random, words),
        7 => mutate_operator(random, words),
        8 => mutate_grammar(random, words),
        9 => mutate_weight(random, words),
        10..=12 => mutate_term(random, words),
        13 => mutate_numeral(random, words),
        14 => regroup(random, words),
        15 | 16 => mutate_operands(random, words),
        _ => mutate_tree(random, words),
    }
}

/// Changes a sort, a literal, a name, an operator, its operands, a count or a grammar.
fn mutate_within_shape(random: &mut Random, words: &mut Vec<String>) {
    match random.below(24) {
        0..=2 => mutate_sort(random, words),
        3 => mutate_literal(random, words),
        4 | 5 => mutate_name(random, words),
        6 => rename_in_command(random, words),
        7 | 8 => mutate_operator(random, words),
        9 => mutate_count(random, words),
        10 => mutate_term(random, words),
        11 => mutate_numeral(random, words),
        12 => regroup(random, words),
        13 | 14 => mutate_operands(random, words),
        15..=17 => take_name(random, words),
        18..=20 => starve(random, words),
        21 => mutate_weight(random, words),
        _ => mutate_grammar(random, words),
    }
}

/// Deletes, doubles, swaps, replaces or puts in a word.
fn mutate_one_word(random: &mut Random, words: &mut Vec<String>) {
    let at = random.below(words.len());
    let other = random.below(words.len());
    let odd = odd_word(random);
    match random.below(7) {
        0 => drop(words.remove(at)),
        1 => words.insert(at, words[at].clone()),
        2 => words.swap(at, other),
        3 => words[at] = words[other].clone(),
        4 => words[at] = odd,
        5 => words.insert(at, odd),
        _ => words[at] = format!("{}{}", words[at], "z".repeat(64)),
    }
}

/// The places of all trees: each word that is no bracket, and each list with its brackets.
fn trees(words: &[String]) -> Vec<Range<usize>> {
    let mut trees = Vec::new();
    let mut open = Vec::new();
    for (at, word) in words.iter().enumerate() {
        match word.as_str() {
            "(" => open.push(at),
            ")" => trees.extend(open.pop().map(|start: usize| start..at + 1)),
            _ => trees.push(at..at + 1),
        }
    }
    trees
}

/// The places of all commands: lists that stand in no list, or in the outer list of a response.
fn commands(words: &[String]) -> Vec<Range<usize>> {
    let begun = |tree: &Range<usize>| {
        let head = words.get(tree.start + 1);
        head.is_some_and(|head| CARRIED_COMMANDS.contains(&head.as_str()))
    };
    let mut commands = trees(words);
    commands.retain(|tree| tree.len() > 1 && begun(tree));
    commands
}

/// Deletes, doubles, swaps or puts in a command, puts in about as many assumptions as there may be, changes a head, makes an
/// assumption of a constraint or the other way round, or deletes all commands that are alike.
fn mutate_command(random: &mut Random, list: &mut Vec<String>) {
    let places = commands(list);
    if places.is_empty() {
        return;
    }
    let command = random.pick(&places);
    let other = random.pick(&places);
    match random.below(11) {
        0 => drop(list.drain(command)),
        1 => insert(list, other.end, list[command].to_vec()),
        2 => swap(list, command, other),
        3 => list[command.start + 1] = reserved_word(random),
        4 => drop_alike(list, &list[command.start + 1].clone()),
        5 => insert(list, list.len(), words(random.pick(&COMMANDS))),
        6 => insert(list, 0, words(random.pick(&COMMANDS))),
        7 => exchange(&mut list[command.start + 1]),
        8 => {
            let assumptions = "( assume true ) ".repeat(random.between(29, 33));
            insert(list, other.end, words(&assumptions));
        }
        _ => insert(list, other.end, words(random.pick(&COMMANDS))),
    }
}

/// Makes `assume` of a head `constraint` and `constraint` of any other one.
fn exchange(head: &mut String) {
    *head = match head.as_str() {
        "constraint" => "assume".to_string(),
        _ => "constraint".to_string(),
    };
}

/// Deletes all commands with a head.
fn drop_alike(list: &mut Vec<String>, head: &str) {
    let next = |list: &[String]| commands(list).into_iter().find(|command| list[command.start + 1] == head);
    while let Some(command) = next(list) {
        list.drain(command);
    }
}

/// Deletes, doubles, swaps, replaces or brackets a tree.
fn mutate_tree(random: &mut Random, list: &mut Vec<String>) {
    let places = trees(list);
    if places.is_empty() {
        return;
    }
    let tree = random.pick(&places);
    let other = random.pick(&places);
    match random.below(7) {
        0 => drop(list.drain(tree)),
        1 => insert(list, tree.end, list[tree.clone()].to_vec()),
        2 => swap(list, tree, other),
        3 => replace(list, tree, list[other].to_vec()),
        4 => {
            insert(list, tree.end, words(")"));
            insert(list, tree.start, words("("));
        }
        _ => replace(list, tree, odd_tree(random)),
    }
}

/// Replaces a sort by another one.
fn mutate_sort(random: &mut Random, list: &mut Vec<String>) {
    let mut places = trees(list);
    places.retain(|tree| {
        let bits =
            tree.len() > 2 && list[tree.start + 1] == "_" && list[tree.start + 2] == "BitVec";
        bits || list[tree.start] == "Bool"
    });
    if places.is_empty() {
        return;
    }
    let sort = match random.below(9) {
        0 => words("Int"),
        1 => words("( _ BitVec 0 )"),
        2 => words("( _ BitVec 65 )"),
        3 => words("8"),
        4 => sort_words(Sort::Bool),
        5 => words("( _ bv5 8 )"),
        _ => sort_words(Sort::BitVec(random.between(1, 64) as u32)),
    };
    replace(list, random.pick(&places), sort);
}

/// The value of the literal that words are, none if they are another tree.
fn literal_of(words: &[String]) -> Option<Value> {
    let text = words.join(" ");
    let words = crate::words::read(text.as_bytes(), words.len()).ok()?;
    literal_value(crate::tree::trees(words).first()?)
}

/// Spells a literal otherwise, or replaces it by another one or by a constant about its bounds.
fn mutate_literal(random: &mut Random, list: &mut Vec<String>) {
    let literals = trees(list).into_iter().filter(|tree| tree.len() <= 5);
    let literals = literals.filter_map(|tree| Some((literal_of(&list[tree.clone()])?, tree)));
    let literals: Vec<(Value, Range<usize>)> = literals.collect();
    if literals.is_empty() {
        return;
    }
    let (value, place) = random.pick(&literals);
    let other = match (random.below(12), value) {
        (0 | 1, Value::Bits { width, bits }) => spelt(random, width, bits),
        (2, Value::Bits { width, bits }) => spelt(random, (width + 1).min(64), bits),
        (3 | 4, Value::Bits { width, bits }) => damaged(random, width, bits),
        (5..=7, _) => odd_constant(random),
        (8, _) => words("7"),
        (9, _) => literal(random, Sort::BitVec(8)),
        _ => literal(random, value.sort()),
    };
    replace(list, place, other);
}

/// A constant of a width and a value with one thing wrong.
fn damaged(random: &mut Random, width: u32, value: u64) -> Vec<String> {
    let past = (1_u128 << width) + u128::from(value);
    words(&match random.below(7) {
        0 => format!("( _ bv{past} {width} )"),
        1 => format!("( _ bv{} {width} )", 1_u128 << width),
        2 => format!("( _ bv0{value} {width} )"),
        3 => "( _ bv0 0 )".to_string(),
        4 => format!("( _ bv{value} 65 )"),
        5 => format!("( _ bv{value} )"),
        _ => format!("( _ bv{value} {width} {width} )"),
    })
}

/// Makes a numeral, or the one behind `bv`, one more or one less, or another one.
fn mutate_numeral(random: &mut Random, words: &mut [String]) {
    let numeral = |word: &str| word.trim_start_matches("bv").parse::<u64>().ok();
    let places = (0..words.len()).filter_map(|at| Some((at, numeral(&words[at])?)));
    let places: Vec<(usize, u64)> = places.collect();
    if places.is_empty() {
        return;
    }
    let (at, value) = random.pick(&places);
    let value = match random.below(3) {
        0 => value.saturating_add(1),
        1 => value.saturating_sub(1),
        _ => random.below(70) as u64,
    };
    let mark = if words[at].starts_with("bv") {
        "bv"
    } else {
        ""
    };
    words[at] = format!("{mark}{value}");
}

/// Groups two operands of an operator that may have more, takes such a group apart, or doubles an operand.
fn regroup(random: &mut Random, list: &mut Vec<String>) {
    let grouping = |at: usize| operator(&list[at]).is_some_and(|one| one.or_more);
    let mut places = trees(list);
    places.retain(|tree| tree.len() > 3 && grouping(tree.start + 1));
    if places.is_empty() {
        return;
    }
    let place = random.pick(&places);
    let head = list[place.start + 1].clone();
    let operands = items(list, &place).split_off(1);
    let at = random.below(operands.len());
    let mut groups = operands.iter().filter(|one| one.len() > 3);
    match (
        random.below(3),
        groups.find(|one| list[one.start + 1] == head),
    ) {
        (0, _) if at > 0 => {
            insert(list, operands[at].end, words(")"));
            insert(list, operands[at - 1].start, vec!["(".to_string(), head]);
        }
        (1, Some(group)) => {
            list.remove(group.end - 1);
            list.drain(group.start..group.start + 2);
        }
        _ => insert(list, operands[at].end, list[operands[at].clone()].to_vec()),
    }
}

/// Takes an operand from an operator, doubles one, puts literals of a sort in the place of one or of all, or leaves the name alone;
/// each operator of the text has the same chance.
fn mutate_operands(random: &mut Random, list: &mut Vec<String>) {
    let mut places = trees(list);
    places.retain(|tree| tree.len() > 3 && operator(&list[tree.start + 1]).is_some());
    let names = places.iter().map(|tree| list[tree.start + 1].clone());
    let names: BTreeSet<String> = names.collect();
    if names.is_empty() {
        return;
    }
    let name = random.pick(&Vec::from_iter(names));
    places.retain(|tree| list[tree.start + 1] == name);
    let place = random.pick(&places);
    let operands = items(list, &place).split_off(1);
    let operand = random.pick(&operands);
    let sort = random.pick(&[Sort::Bool, Sort::Bool, Sort::BitVec(8), Sort::BitVec(7)]);
    match random.below(8) {
        0 => drop(list.drain(operand)),
        1 | 2 => insert(list, operand.end, list[operand.clone()].to_vec()),
        3 | 4 => replace(list, operand, literal(random, sort)),
        5 => replace(list, place, vec![name]),
        _ => {
            for operand in operands.into_iter().rev() {
                replace(list, operand, literal(random, sort));
            }
        }
    }
}

/// Replaces an operator by another one, mostly with operands of the same number and sorts.
fn mutate_operator(random: &mut Random, words: &mut [String]) {
    let places: Vec<usize> = (0..words.len())
        .filter(|&at| operator(&words[at]).is_some())
        .collect();
    if places.is_empty() {
        return;
    }
    let at = random.pick(&places);
    let known = operator(&words[at]).map(|one| (one.operands, one.rule));
    let mut others: Vec<&str> = OPERATORS.iter().map(|one| one.name).collect();
    if random.percent(80) {
        others.retain(|name| operator(name).map(|one| (one.operands, one.rule)) == known);
    }
    words[at] = random.pick(&others).to_string();
}

/// The places of the trees that are items of a list, none where a word stands alone.
fn items(words: &[String], list: &Range<usize>) -> Vec<Range<usize>> {
    let mut items = Vec::new();
    if list.len() < 2 {
        return items;
    }
    let mut nesting = 0;
    let mut start = list.start + 1;
    for (index, word) in words[list.start + 1..list.end - 1].iter().enumerate() {
        match word.as_str() {
            "(" => nesting += 1,
            ")" => nesting -= 1,
            _ => {}
        }
        if nesting == 0 {
            let end = list.start + 1 + index + 1;
            items.push(start..end);
            start = end;
        }
    }
    items
}

/// Deletes, doubles or swaps items of a grammar: of its two lists, or of a listed non-terminal's rules.
fn mutate_grammar(random: &mut Random, list: &mut Vec<String>) {
    let mut places = commands(list);
    places.retain(|command| list[command.start + 1] == "synth-fun");
    if places.is_empty() {
        return;
    }
    let parts = items(list, &random.pick(&places));
    let [_, _, _, _, predeclaration, listing] = &parts[..] else {
        return;
    };
    let mut lists = vec![predeclaration.clone(), listing.clone(), listing.clone()];
    for group in items(list, listing) {
        lists.extend(items(list, &group).pop());
    }
    lists.retain(|one| one.len() > 2);
    if lists.is_empty() {
        return;
    }
    let all = random.pick(&lists);
    let places = items(list, &all);
    let (one, other) = (random.pick(&places), random.pick(&places));
    match random.below(6) {
        0 => drop(list.drain(all.start + 1..all.end - 1)),
        1 | 2 => drop(list.drain(one)),
        3 => insert(list, other.end, list[one].to_vec()),
        4 => swap(list, one, other),
        _ => replace(list, one, literal(random, Sort::BitVec(8))),
    }
}

/// Takes the feature away, says it otherwise, or says it at another place or once more.
fn mutate_feature(random: &mut Random, list: &mut Vec<String>) {
    let places = commands(list);
    let feature = places.iter().find(|one| list[one.start + 1] == "set-feature");
    match feature.cloned() {
        Some(place) if random.percent(30) => drop(list.drain(place)),
        Some(place) if random.percent(60) => {
            replace(list, place.start + 2..place.end - 1, words(random.pick(&FEATURES)));
        }
        _ if places.is_empty() => {}
        _ => {
            let at = random.pick(&places);
            insert(list, at.end, words("( set-feature :weights true )"));
        }
    }
}

/// Gives a rule weights, about the limit too, or changes, adds or takes away a part of a rule that has some.
fn mutate_weight(random: &mut Random, list: &mut Vec<String>) {
    let mut places = commands(list);
    places.retain(|command| list[command.start + 1] == "synth-fun");
    let groups = places.iter().flat_map(|command| listed(list, command));
    let rules: Vec<Range<usize>> = groups.flat_map(|[_, _, rules]| items(list, &rules)).collect();
    let marked = |rule: &&Range<usize>| list[rule.start + 1] == "!" && items(list, rule).len() > 2;
    let marked: Vec<Range<usize>> = rules.iter().filter(marked).cloned().collect();
    if !marked.is_empty() && random.percent(60) {
        let rule = random.pick(&marked);
        mutate_marked(random, list, rule);
    } else if !rules.is_empty() {
        let rule = random.pick(&rules);
        let mut weights = attributes(random);
        weights.push(random.pick(&[1, 65_535, 65_536, 65_536, 999_999_999]));
        replace(list, rule.clone(), weighed(list[rule].to_vec(), &weights));
    }
}

/// Changes, adds or takes away a part of a rule that has attributes, or puts attributes or another sort within it.
fn mutate_marked(random: &mut Random, list: &mut Vec<String>, rule: Range<usize>) {
    let parts = items(list, &rule);
    let (part, term) = (random.pick(&parts), parts[1].clone());
    let inner = random.pick(&trees(&list[term.clone()]));
    let inner = term.start + inner.start..term.start + inner.end;
    let weights = [random.pick(&[0, 1, 65_536])];
    match random.below(13) {
        0 => drop(list.drain(part)),
        1 => insert(list, part.end, words(":weight 65536")),
        2 => insert(list, part.end, list[part].to_vec()),
        3 => replace(list, part, vec![odd_word(random)]),
        4 | 5 => replace(list, parts[parts.len() - 1].clone(), words(random.pick(&["65535", "65536", "x", "#x01"]))),
        6 => drop(list.drain(term.end..rule.end - 1)),
        7 => list[parts[2].start] = ":weights".to_string(),
        8 => replace(list, term.clone(), weighed(list[term].to_vec(), &weights)),
        9 => replace(list, inner.clone(), weighed(list[inner].to_vec(), &weights)),
        _ => {
            let sort = random.pick(&[Sort::Bool, Sort::BitVec(7), Sort::BitVec(64)]);
            replace(list, term, literal(random, sort));
        }
    }
}

/// The listed non-terminals of a `synth-fun`: each with its name, its sort and its rules.
fn listed(words: &[String], command: &Range<usize>) -> Vec<[Range<usize>; 3]> {
    let listing = items(words, command).get(5).cloned();
    let groups = listing.map_or(Vec::new(), |listing| items(words, &listing));
    let parts = groups.iter().map(|group| items(words, group).try_into());
    parts.filter_map(Result::ok).collect()
}

/// Takes from a non-terminal all rules that lead to a term: only rules remain that need it, or it leads to itself alone, to another one of
/// its sort that leads back, or to `(Variable σ)`.
fn starve(random: &mut Random, list: &mut Vec<String>) {
    let mut places = commands(list);
    places.retain(|command| list[command.start + 1] == "synth-fun");
    if places.is_empty() {
        return;
    }
    let groups = listed(list, &random.pick(&places));
    if groups.is_empty() {
        return;
    }
    let [name, sort, rules] = random.pick(&groups);
    let own = list[name.start].clone();
    let alike = |group: &&[Range<usize>; 3]| list[group[1].clone()] == list[sort.clone()];
    let alike: Vec<[Range<usize>; 3]> = groups.iter().filter(alike).cloned().collect();
    let [other, _, others] = random.pick(&alike);
    let to_other = vec!["(".to_string(), list[other.start].clone(), ")".to_string()];
    let to_own = vec!["(".to_string(), own.clone(), ")".to_string()];
    match random.below(4) {
        0 => {
            let mut kept = items(list, &rules);
            kept.retain(|rule| list[rule.clone()].contains(&own));
            let kept: Vec<Vec<String>> = kept.into_iter().map(|rule| list[rule].to_vec()).collect();
            match kept.is_empty() {
                true => replace(list, rules, to_own),
                false => replace(list, rules.start + 1..rules.end - 1, kept.concat()),
            }
        }
        1 => {
            let variable = [words("( ( Variable"), list[sort].to_vec(), words(") )")];
            replace(list, rules, variable.concat());
        }
        2 if others.start != rules.start => {
            let mut both = [(rules, to_other), (others, to_own)];
            both.sort_by_key(|(place, _)| std::cmp::Reverse(place.start));
            for (place, words) in both {
                replace(list, place, words);
            }
        }
        _ => replace(list, rules, to_own),
    }
}

/// The places of all words that may be names.
fn names(words: &[String]) -> Vec<usize> {
    let is_name = |word: &String| word.starts_with(|byte: char| byte.is_ascii_alphabetic());
    (0..words.len()).filter(|&at| is_name(&words[at])).collect()
}

/// The places of the names that commands declare.
fn declared(words: &[String]) -> Vec<usize> {
    let places = commands(words).into_iter().map(|one| one.start + 2);
    places
        .filter(|&at| words[at] != "(" && words[at] != ")")
        .collect()
}

/// The places of all new names: of commands, of arguments and of predeclared non-terminals.
fn new_names(words: &[String]) -> Vec<usize> {
    let mut places = declared(words);
    for command in commands(words) {
        let parts = items(words, &command);
        let lists = [parts.get(2), parts.get(4)].into_iter().flatten();
        let pairs = lists.flat_map(|list| items(words, list));
        places.extend(
            pairs
                .filter(|pair| pair.len() > 2)
                .map(|pair| pair.start + 1),
        );
    }
    places.sort_unstable();
    places
}

/// Gives a new name the spelling of one that is declared before it, in scope or no more; mostly wherever it stands in its command.
fn take_name(random: &mut Random, words: &mut [String]) {
    let places = new_names(words);
    if places.len() < 2 {
        return;
    }
    let index = random.between(1, places.len() - 1);
    let (at, earlier) = (places[index], places[random.below(index)]);
    let (from, to) = (words[at].clone(), words[earlier].clone());
    let own = commands(words).into_iter().find(|one| one.contains(&at));
    match own {
        Some(command) if random.percent(60) => rename(&mut words[at..command.end], &from, &to),
        _ => words[at] = to,
    }
}

/// A name of the text and another one of it or a reserved word.
fn renaming(random: &mut Random, words: &[String]) -> Option<(String, String)> {
    let places = match random.percent(50) {
        true => declared(words),
        false => names(words),
    };
    if places.is_empty() {
        return None;
    }
    let from = words[random.pick(&places)].clone();
    let to = match random.percent(50) {
        true => words[random.pick(&places)].clone(),
        false => reserved_word(random),
    };
    Some((from, to))
}

/// Replaces a name wherever it stands.
fn rename(words: &mut [String], from: &str, to: &str) {
    for word in words {
        if word == from {
            *word = to.to_string();
        }
    }
}

/// Replaces a name wherever it stands in one command.
fn rename_in_command(random: &mut Random, words: &mut [String]) {
    let places = commands(words);
    if places.is_empty() {
        return;
    }
    let command = random.pick(&places);
    if let Some((from, to)) = renaming(random, &words[command.clone()]) {
        rename(&mut words[command], &from, &to);
    }
}

/// Replaces a name at one place by another one of the text or by a new one.
fn mutate_name(random: &mut Random, words: &mut [String]) {
    let places = names(words);
    if places.is_empty() {
        return;
    }
    let at = random.pick(&places);
    words[at] = match random.percent(70) {
        true => words[random.pick(&places)].clone(),
        false => odd_word(random),
    };
}

/// Replaces a part of a constraint's, an assumption's or a body's term.
fn mutate_term(random: &mut Random, list: &mut Vec<String>) {
    let mut places = commands(list);
    places.retain(|command| {
        matches!(
            list[command.start + 1].as_str(),
            "constraint" | "assume" | "define-fun"
        )
    });
    if places.is_empty() {
        return;
    }
    let Some(term) = items(list, &random.pick(&places)).pop() else {
        return;
    };
    let mut parts = trees(&list[term.clone()]);
    let part = parts.swap_remove(random.below(parts.len()));
    let place = term.start + part.start..term.start + part.end;
    let other = match random.below(4) {
        0 => list[random.pick(&trees(list))].to_vec(),
        1 => words(&odd_word(random)),
        _ => odd_tree(random),
    };
    replace(list, place, other);
}

/// Repeats a tree up to about a limit, or buries it in negations.
fn mutate_count(random: &mut Random, list: &mut Vec<String>) {
    let mut places = trees(list);
    places.retain(|tree| tree.len() < 20);
    if places.is_empty() {
        return;
    }
    let tree = random.pick(&places);
    let copy = list[tree.clone()].to_vec();
    match random.below(3) {
        0 => {
            let times = random.between(55, 64);
            let buried = [
                words(&"( not ".repeat(times)),
                copy,
                words(&") ".repeat(times)),
            ];
            replace(list, tree, buried.concat());
        }
        1 => {
            let mut leaves = vec![copy; random.between(126, 130)];
            while leaves.len() > 1 {
                let pair = |pair: &[Vec<String>]| match pair {
                    [a, b] => [words("( and"), a.clone(), b.clone(), words(")")].concat(),
                    _ => pair.concat(),
                };
                leaves = leaves.chunks(2).map(pair).collect();
            }
            replace(list, tree, leaves.concat());
        }
        _ => {
            let times = random.pick(&[7, 8, 15, 16, 31, 32, 63, 64, 127, 128, 255, 256]);
            insert(list, tree.end, vec![copy; times].concat());
        }
    }
}

/// Puts words in at a place.
fn insert(list: &mut Vec<String>, at: usize, words: Vec<String>) {
    list.splice(at..at, words);
}

/// Replaces a tree by other words.
fn replace(list: &mut Vec<String>, tree: Range<usize>, words: Vec<String>) {
    list.splice(tree, words);
}

/// Swaps two trees if neither holds the other.
fn swap(list: &mut Vec<String>, one: Range<usize>, other: Range<usize>) {
    let (first, second) = match one.start < other.start {
        true => (one, other),
        false => (other, one),
    };
    if first.end <= second.start {
        let words = list[first.clone()].to_vec();
        let others = list[second.clone()].to_vec();
        replace(list, second, words);
        replace(list, first, others);
    }
}

/// Flips, puts in, deletes or pads bytes.
pub fn mutate_bytes(random: &mut Random, text: &mut Vec<u8>) {
    let at = random.below(text.len() + 1);
    match random.below(8) {
        0 | 1 if at < text.len() => text[at] ^= 1 << random.below(8),
        2 | 3 if at < text.len() => drop(text.remove(at)),
        4 if random.percent(10) => text.resize(random.between(8_190, 66_000), b' '),
        5 => text.insert(at, random.number() as u8),
        _ => text.insert(at, random.pick(b" \n\r\t\x0b\x0c\x00();\"|:#x0'\x80\xff")),
    }
}
