//! Cases about the limits: one or two counts or sizes just below a limit, at it or past it, all else small.

use super::draft::words;
use super::mutate::odd_word;
use super::random::Random;
use super::spaces;

/// A text of a script and one of a response, and the points.
pub struct Sized {
    pub script: Vec<u8>,
    pub response: Vec<u8>,
    pub points: Vec<u64>,
}

/// How many there are of each thing that a limit counts, how large each is, and whether all operands of a large term stand side
/// by side.
#[derive(Clone)]
struct Counts {
    variables: usize,
    definitions: usize,
    functions: usize,
    constraints: usize,
    assumptions: usize,
    definition_arguments: usize,
    function_arguments: usize,
    answer_arguments: usize,
    nonterminals: usize,
    rules: usize,
    definition_nodes: usize,
    rule_nodes: usize,
    constraint_nodes: usize,
    assumption_nodes: usize,
    body_nodes: usize,
    constraint_nesting: usize,
    body_nesting: usize,
    width: usize,
    name_bytes: usize,
    hex_digits: usize,
    binary_digits: usize,
    decimal_digits: usize,
    constant_width: usize,
    script_words: usize,
    response_words: usize,
    script_bytes: usize,
    response_bytes: usize,
    point_numbers: usize,
    wide: bool,
}

/// Counts of a small case.
const SMALL: Counts = Counts {
    variables: 1,
    definitions: 1,
    functions: 1,
    constraints: 1,
    assumptions: 1,
    definition_arguments: 0,
    function_arguments: 1,
    answer_arguments: 0,
    nonterminals: 1,
    rules: 4,
    definition_nodes: 1,
    rule_nodes: 1,
    constraint_nodes: 1,
    assumption_nodes: 1,
    body_nodes: 1,
    constraint_nesting: 1,
    body_nesting: 2,
    width: 8,
    name_bytes: 1,
    hex_digits: 1,
    binary_digits: 1,
    decimal_digits: 1,
    constant_width: 64,
    script_words: 0,
    response_words: 0,
    script_bytes: 0,
    response_bytes: 0,
    point_numbers: 1,
    wide: false,
};

/// A count and its limit.
type Limit = (fn(&mut Counts) -> &mut usize, usize);

/// "Numbers the checker holds to".
const LIMITS: [Limit; 28] = [
    (|counts| &mut counts.variables, 16),
    (|counts| &mut counts.definitions, 32),
    (|counts| &mut counts.functions, 8),
    (|counts| &mut counts.constraints, 64),
    (|counts| &mut counts.assumptions, 32),
    (|counts| &mut counts.definition_arguments, 8),
    (|counts| &mut counts.function_arguments, 8),
    (|counts| &mut counts.answer_arguments, 8),
    (|counts| &mut counts.nonterminals, 16),
    (|counts| &mut counts.rules, 128),
    (|counts| &mut counts.definition_nodes, 256),
    (|counts| &mut counts.rule_nodes, 256),
    (|counts| &mut counts.constraint_nodes, 256),
    (|counts| &mut counts.assumption_nodes, 256),
    (|counts| &mut counts.body_nodes, 256),
    (|counts| &mut counts.constraint_nesting, 64),
    (|counts| &mut counts.body_nesting, 64),
    (|counts| &mut counts.width, 64),
    (|counts| &mut counts.name_bytes, 64),
    (|counts| &mut counts.hex_digits, 16),
    (|counts| &mut counts.binary_digits, 64),
    (|counts| &mut counts.decimal_digits, 20),
    (|counts| &mut counts.constant_width, 64),
    (|counts| &mut counts.script_words, 8_192),
    (|counts| &mut counts.response_words, 2_048),
    (|counts| &mut counts.script_bytes, 65_536),
    (|counts| &mut counts.response_bytes, 8_192),
    (|counts| &mut counts.point_numbers, 1_024),
];

/// A case about one or two limits.
pub fn sized(random: &mut Random) -> Sized {
    let mut counts = SMALL;
    for _ in 0..random.pick(&[1, 1, 2]) {
        let (count, limit) = LIMITS[random.below(LIMITS.len())];
        *count(&mut counts) = random.between(limit - 1, limit + 2);
    }
    counts.wide = random.percent(40);
    if counts.wide && counts.body_nodes > 1 && random.percent(50) {
        counts.rule_nodes = counts.body_nodes;
    }
    if counts.response_words > 0 {
        counts.functions = counts.functions.max(5);
    }
    if counts.point_numbers == 1 {
        counts.point_numbers = counts.variables;
    }
    let mut script = script(&counts);
    let mut response = response(&counts);
    let full = [counts.script_words > 0, counts.response_words > 0];
    for (text, full) in [&mut script, &mut response].into_iter().zip(full) {
        if random.percent(if full { 60 } else { 25 }) {
            roughen(random, text);
        }
    }
    Sized {
        script: padded(random, script, counts.script_bytes),
        response: padded(random, response, counts.response_bytes),
        points: (0..counts.point_numbers)
            .map(|_| random.below(2) as u64)
            .collect(),
    }
}

/// Puts a word that is refused at the end of a text, or an odd one or a numeral at the place of a literal.
fn roughen(random: &mut Random, text: &mut String) {
    let refused = random.pick(&[" \"s", " 00", ")", " 1234567890", " x"]);
    let literals: Vec<usize> = text.match_indices("true").map(|(at, _)| at).collect();
    if literals.is_empty() || random.percent(40) {
        *text += refused;
        return;
    }
    let odd = match random.percent(60) {
        true => "7".to_string(),
        false => odd_word(random),
    };
    let at = random.pick(&literals);
    text.replace_range(at..at + "true".len(), &odd);
}

/// So many parts, each made from its number, one after another.
fn repeated(count: usize, part: impl Fn(usize) -> String) -> String {
    (0..count).map(part).collect()
}

/// A true term with so many nodes, all operands side by side or two by two.
fn with_nodes(nodes: usize, wide: bool) -> String {
    match nodes {
        0 | 1 => "true".to_string(),
        2 => "(not false)".to_string(),
        _ if wide => format!("(and{})", " true".repeat(nodes - 1)),
        _ => {
            let half = (nodes - 1) / 2;
            let (one, other) = (with_nodes(half, wide), with_nodes(nodes - 1 - half, wide));
            format!("(and {one} {other})")
        }
    }
}

/// A Bool term with so many words, or the next number of words that a term can have.
fn with_words(count: usize) -> String {
    match count {
        0 | 1 => "true".to_string(),
        2..=4 => "(not false)".to_string(),
        5 => "(and true true)".to_string(),
        6 | 7 => "(not (not true))".to_string(),
        8 => "(not (and true false))".to_string(),
        9 => "(and true (and true true))".to_string(),
        10 => "(not (not (not false)))".to_string(),
        _ => {
            let operands = count - 3;
            let half = match operands {
                11 => 4,
                12 | 13 => 5,
                _ => operands / 2,
            };
            let (one, other) = (with_words(half), with_words(operands - half));
            format!("(and {one} {other})")
        }
    }
}

/// A true term whose words are nested so deep.
fn with_nesting(nesting: usize) -> String {
    let leaf = nesting % 2 == 0;
    format!("{}{leaf}{}", "(not ".repeat(nesting), ")".repeat(nesting))
}

/// A list of so many arguments.
fn arguments(count: usize) -> String {
    format!("({})", repeated(count, |index| format!("(a{index} Bool)")))
}

/// The number of words of a text without comments.
fn count_words(text: &str) -> usize {
    words(&text.replace('(', " ( ").replace(')', " ) ")).len()
}

/// The script of these counts.
fn script(counts: &Counts) -> String {
    let (width, name) = (counts.width, "w".repeat(counts.name_bytes));
    let mut script = "(set-logic BV)\n".to_string();
    script += &repeated(counts.variables, |index| {
        format!("(declare-var v{index} Bool)\n")
    });
    script += &repeated(counts.definitions, |index| definition(index, counts));
    script += &repeated(counts.functions, |index| function(index, counts));
    let before = counts.assumptions / 2;
    script += &repeated(before, |_| assumption(counts));
    script += &repeated(counts.constraints, |_| constraint(counts));
    script += &repeated(counts.assumptions - before, |_| assumption(counts));
    script += &format!("(define-fun {name} ((x (_ BitVec {width}))) (_ BitVec {width}) x)\n");
    script += &literals(counts);
    script += &filling(counts, count_words(&script));
    script + "(check-synth)"
}

/// A `define-fun` of the script.
fn definition(index: usize, counts: &Counts) -> String {
    let arguments = arguments(counts.definition_arguments);
    let body = with_nodes(counts.definition_nodes, counts.wide);
    format!("(define-fun d{index} {arguments} Bool {body})\n")
}

/// A `synth-fun`: its start derives conjunctions and negations of literals, each other non-terminal `true`.
fn function(index: usize, counts: &Counts) -> String {
    let arguments = arguments(counts.function_arguments);
    let others = counts.nonterminals.saturating_sub(1);
    let predeclared = repeated(counts.nonterminals, |index| format!("(N{index} Bool) "));
    let first = ["(Constant Bool)", "(not N0)", "(and N0 N0)"];
    let largest = with_nodes(counts.rule_nodes, counts.wide);
    let rules = repeated(counts.rules.saturating_sub(others).max(1), |index| {
        let rule = first.get(index).copied().unwrap_or(&largest);
        format!("{rule} ")
    });
    let others = repeated(others, |index| format!("(N{} Bool (true))", index + 1));
    format!(
        "(synth-fun f{index} {arguments} Bool ({predeclared}) ((N0 Bool ({rules})) {others}))\n"
    )
}

/// A `constraint`.
fn constraint(counts: &Counts) -> String {
    let nested = with_nesting(counts.constraint_nesting - 1);
    match counts.constraint_nodes {
        1 => format!("(constraint {nested})\n"),
        nodes => format!("(constraint {})\n", with_nodes(nodes, counts.wide)),
    }
}

/// An `assume`.
fn assumption(counts: &Counts) -> String {
    let term = with_nodes(counts.assumption_nodes, counts.wide);
    format!("(assume {term})\n")
}

/// A `define-fun` with long literals.
fn literals(counts: &Counts) -> String {
    let hex = format!("#x{}", "7".repeat(counts.hex_digits));
    let binary = format!("#b{}", "1".repeat(counts.binary_digits));
    let digits = "1".repeat(counts.decimal_digits);
    let decimal = format!("(_ bv{digits} {})", counts.constant_width);
    let equations = [hex, binary, decimal].map(|one| format!(" (= {one} {one})"));
    format!("(define-fun k () Bool (and{}))\n", equations.concat())
}

/// `define-fun`s that bring a script with so many words to the number wanted, `check-synth` counted.
fn filling(counts: &Counts, count: usize) -> String {
    let mut left = counts.script_words.saturating_sub(count + 3);
    let mut filling = String::new();
    while left > 8 {
        let next = if left > 500 { 400 } else { left };
        let name = format!("e{left}");
        filling += &format!("(define-fun {name} () Bool {})\n", with_words(next - 7));
        left -= next;
    }
    filling
}

/// The response of these counts.
fn response(counts: &Counts) -> String {
    let arguments = arguments(counts.answer_arguments.max(counts.function_arguments));
    let headers = 2 + counts.functions * (5 + count_words(&arguments));
    let left = counts.response_words.saturating_sub(headers);
    let share = left / counts.functions;
    let body = |index: usize| match (counts.body_nodes, left) {
        (nodes @ 2.., _) => with_nodes(nodes, counts.wide),
        (_, 0) => with_nesting(counts.body_nesting - 2),
        _ if index == 0 => with_words(share + left % counts.functions),
        _ => with_words(share),
    };
    let function = |index| format!("(define-fun f{index} {arguments} Bool {})\n", body(index));
    format!("({})", repeated(counts.functions, function))
}

/// The text, brought to a number of bytes by white space before or behind it or by a comment where it is shorter, or ended in
/// some way where no number is given.
fn padded(random: &mut Random, text: String, bytes: usize) -> Vec<u8> {
    let missing = bytes.saturating_sub(text.len());
    let mut text = text.into_bytes();
    spaces::respace(random, &mut text);
    let padding = match random.below(5) {
        _ if bytes == 0 => return [text, spaces::ending(random)].concat(),
        0 => vec![b' '; missing],
        1 => vec![b'\n'; missing],
        2 => spaces::blank(random, missing),
        3 => return [text, vec![b';'; missing]].concat(),
        _ => return [text, spaces::filled(random, missing)].concat(),
    };
    match random.percent(50) {
        true => [padding, text].concat(),
        false => [text, padding].concat(),
    }
}
