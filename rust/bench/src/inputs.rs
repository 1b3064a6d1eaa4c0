//! What is measured: scripts of several sizes with responses that their grammars derive, and points.

/// What a checker takes, the lent area and the budget apart, and the number that it answers.
pub struct Input {
    pub script: Vec<u8>,
    pub response: Vec<u8>,
    pub points: Vec<u64>,
    pub number: u8,
}

/// The most blocks of a script: so many reach the limits of functions, `define-fun`s, constraints, words and bytes.
pub const MOST_BLOCKS: usize = 8;
/// The words of a block; the first one makes room for those of the script's frame.
pub const BLOCK_WORDS: usize = 1_024;
/// The bytes of a block.
const BLOCK_BYTES: usize = 8_192;
/// The most numbers of points.
pub const MOST_POINTS: usize = 1_024;
/// What begins a script of blocks.
const BEGIN: &str = "(set-logic BV)\n(declare-var left_reading (_ BitVec 32))\n";
/// What ends a script.
const END: &str = "(check-synth)\n";
/// The arguments of functions.
const ARGUMENTS: &str = "((first_word (_ BitVec 32)) (second_word (_ BitVec 32))) (_ BitVec 32)";
/// The operators of 32 bits and two operands.
const OPERATORS: [&str; 10] = [
    "bvadd", "bvsub", "bvand", "bvor", "bvxor", "bvmul", "bvudiv", "bvurem", "bvshl", "bvlshr",
];

/// A script of 1 to 2 KiB with variables and without points, so that nothing is evaluated.
pub fn typical() -> Input {
    Input {
        script: include_bytes!("typical.sy").to_vec(),
        response: include_bytes!("typical.response").to_vec(),
        points: Vec::new(),
        number: 0,
    }
}

/// A script of nearly 4 KiB of the same kind, which the proved checker reads into tables of middle size.
pub fn longer() -> Input {
    Input {
        script: include_bytes!("longer.sy").to_vec(),
        response: include_bytes!("longer.response").to_vec(),
        points: Vec::new(),
        number: 0,
    }
}

/// A script of so many blocks, with a variable and without points, so that nothing is evaluated.
pub fn blocks(count: usize) -> Input {
    let mut script = BEGIN.to_string();
    let mut response = "(\n".to_string();
    let frame = count_words(BEGIN) + count_words(END);
    for index in 0..count {
        let taken = if index == 0 { frame } else { 0 };
        let ends = if index + 1 == count { END } else { "" };
        let start = if index == 0 { 0 } else { script.len() };
        script += &block(index, BLOCK_WORDS - taken);
        let missing = (start + BLOCK_BYTES).saturating_sub(script.len() + ends.len() + 1);
        script += &format!("{:;<missing$}\n{ends}", "");
        response += &format!("(define-fun compute_{index} {ARGUMENTS}\n  {})\n", body(5));
    }
    response += ")\n";
    Input {
        script: script.into_bytes(),
        response: response.into_bytes(),
        points: Vec::new(),
        number: 0,
    }
}

/// So many parts, each made from its number, one after another.
fn repeated(count: usize, part: impl Fn(usize) -> String) -> String {
    (0..count).map(part).collect()
}

/// The number of words of a text without comments.
fn count_words(text: &str) -> usize {
    let apart = text.replace('(', " ( ").replace(')', " ) ");
    apart.split_whitespace().count()
}

/// A term of 32 bits that is so many operators deep and applies each to a name, by turns.
fn chain(depth: usize, names: [&str; 2]) -> String {
    let begin = repeated(depth, |level| {
        let (operator, name) = (OPERATORS[level % OPERATORS.len()], names[level % 2]);
        format!("({operator} {name}\n  ")
    });
    format!("{begin}#x{depth:08X}{}", ")".repeat(depth))
}

/// Four `define-fun`s, a `synth-fun` and eight constraints with so many words.
fn block(index: usize, words: usize) -> String {
    let definitions = repeated(4, |number| {
        let body = chain(number + 10, ["first_word", "second_word"]);
        format!("(define-fun combine_{index}_{number} {ARGUMENTS}\n  {body})\n")
    });
    let constraints = repeated(8, |number| {
        let sum = chain(number + 4, ["left_reading"; 2]);
        format!("(constraint (= (compute_{index} left_reading left_reading)\n  {sum}))\n")
    });
    let missing = words - count_words(&definitions) - count_words(&constraints);
    definitions + &function(index, missing) + &constraints
}

/// A `synth-fun` with so many words.
fn function(index: usize, words: usize) -> String {
    let begin = format!("(synth-fun compute_{index} {ARGUMENTS}\n  ((Word (_ BitVec 32)) (Condition Bool))\n  ((Word (_ BitVec 32) (");
    let binary = OPERATORS.map(|name| format!("({name} Word Word)\n    "));
    let calls = repeated(4, |number| {
        format!("(combine_{index}_{number} Word Word)\n    ")
    });
    let rules =
        "first_word second_word (ite Condition Word Word)\n    (bvnot Word) (bvneg Word)\n    ";
    let end = "))\n   (Condition Bool ((= Word Word) (bvult Word Word) (and Condition Condition) (not Condition)))))\n";
    let text = format!("{begin}{}{calls}{rules}", binary.concat());
    let missing = words - count_words(&text) - count_words(end);
    let terms = repeated(missing / 6, |number| {
        format!("(bvadd Word #x{number:08X})\n    ")
    });
    let literals = missing - count_words(&terms);
    let literals = repeated(literals, |number| format!("#x{number:08X} "));
    format!("{text}{terms}{literals}{end}")
}

/// A body that such a function's grammar derives, so many operators deep.
fn body(depth: usize) -> String {
    match depth {
        0 => "first_word".to_string(),
        _ => {
            let operand = body(depth - 1);
            let operator = OPERATORS[depth % OPERATORS.len()];
            format!("({operator} {operand} {operand})")
        }
    }
}

/// A script with 64 constraints that hold everywhere, at so many points.
pub fn constraints(points: usize) -> Input {
    evaluated(&equations("constraint", 64), points)
}

/// A script with 32 assumptions and 64 constraints that hold everywhere, at so many points.
pub fn assumptions(points: usize) -> Input {
    let assumptions = equations("assume", 32);
    evaluated(&(assumptions + &equations("constraint", 64)), points)
}

/// So many commands of a head, each with an equation that holds everywhere.
fn equations(head: &str, count: usize) -> String {
    repeated(count, |number| {
        format!(
            "({head} (= (f (bvadd x #x000000{number:02X})) (f (bvadd #x000000{number:02X} x))))\n"
        )
    })
}

/// A script with these commands about a function f and a variable x, at so many points.
fn evaluated(commands: &str, points: usize) -> Input {
    let sort = "(_ BitVec 32)";
    let script = format!(
        "(set-logic BV)\n(declare-var x {sort})
(define-fun fold ((w {sort}) (by {sort})) {sort} (bvxor w (bvlshr w by)))
(synth-fun f ((w {sort})) {sort} ((A {sort})) ((A {sort} (w (Constant {sort}) (fold A A) (bvmul A A) (bvand A A)))))
{commands}{END}"
    );
    let response = format!("((define-fun f ((w {sort})) {sort} (bvand (fold (bvmul w #x9E3779B1) #x00000010) #x0000FFFF)))");
    let point = |number: u64| number.wrapping_mul(0x9E37_79B1) & 0xFFFF_FFFF;
    Input {
        script: script.into_bytes(),
        response: response.into_bytes(),
        points: (0..points as u64).map(point).collect(),
        number: 0,
    }
}

/// A script that applies an operator in 64 constraints, eleven times in each, with a variable and without points, so that nothing is evaluated.
pub fn applications(operator: &str) -> Input {
    let applied = format!(" ({operator} #b1 #b1)").repeat(11);
    let constraints = format!("(constraint (and{applied}))\n").repeat(64);
    let script = format!(
        "(set-logic BV)\n(declare-var x Bool)\n(synth-fun f () Bool ((A Bool)) ((A Bool (true))))\n{constraints}{END}"
    );
    Input {
        script: script.into_bytes(),
        response: b"((define-fun f () Bool true))".to_vec(),
        points: Vec::new(),
        number: 0,
    }
}

/// A script that has a word so many times in a command that is none: all its words are read, and it is refused there.
pub fn unknown(word: &str, times: usize) -> Input {
    let words = format!(" {word}").repeat(times);
    Input {
        script: format!("(set-logic BV)\n(unknown{words})\n").into_bytes(),
        response: b"fail".to_vec(),
        points: Vec::new(),
        number: 5,
    }
}

#[cfg(test)]
mod tests {
    use super::*;
    use simple::{check, AREA_LENGTH};

    #[test]
    fn assumptions_and_constraints_are_evaluated_at_every_point() {
        let units = [constraints(3), assumptions(3)].map(|input| {
            let (script, response) = (&input.script, &input.response);
            let mut area = vec![0; AREA_LENGTH];
            let answer = check(script, response, &input.points, u64::MAX, &mut area);
            assert_eq!((answer.number, answer.second), (0, 3));
            answer.units
        });
        assert_eq!(units[0] / 64, units[1] / 96);
    }

    #[test]
    fn the_largest_script_is_as_large_as_may_be() {
        let input = blocks(MOST_BLOCKS);
        let mut area = vec![0; AREA_LENGTH];
        let answer = check(&input.script, &input.response, &[], 0, &mut area);
        assert_eq!((answer.number, answer.place), (0, 0));
        let text = String::from_utf8(input.script).expect("a text");
        let lines = text.lines().map(|line| line.split(';').next());
        let words = lines.map(|line| count_words(line.expect("a part")));
        assert_eq!(words.sum::<usize>(), 8_192);
        assert!((65_500..=65_536).contains(&text.len()), "{}", text.len());
        assert!((4_000..=8_192).contains(&input.response.len()));
        assert!((1_024..=2_048).contains(&typical().script.len()));
        assert!((3_900..=4_096).contains(&longer().script.len()));
    }

    #[test]
    fn typical_texts_are_accepted_at_points() {
        for input in [typical(), longer()] {
            let mut area = vec![0; AREA_LENGTH];
            let points = [0, 1, 7, 7, 0x8000_0000, 0xFFFF_FFFF];
            let answer = check(&input.script, &input.response, &points, u64::MAX, &mut area);
            assert_eq!((answer.number, answer.second), (0, 3));
        }
    }
}
