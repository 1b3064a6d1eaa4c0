//! Cases without a sound script behind them: bytes, words and trees at random.

use super::mutate::odd_word;
use super::random::Random;
use super::spaces;

/// What begins a script that is read up to its noise.
const BEGIN: &str = "(set-logic BV)(declare-var y Bool)(define-fun d ((x Bool)) Bool x)";
/// A function for noise to stand behind.
const FUNCTION: &str = "(synth-fun f ((x Bool)) Bool ((A Bool)) ((A Bool (x (d A) (not A)))))";
/// A response to a script with that function.
pub const RESPONSE: &[u8] = b"((define-fun f ((x Bool)) Bool (d (not x))))";
/// The heads of commands and of lists within them.
const HEADS: [&str; 16] = [
    "set-logic",
    "set-feature",
    "!",
    ":weight",
    "declare-var",
    "define-fun",
    "synth-fun",
    "constraint",
    "assume",
    "check-synth",
    "and",
    "not",
    "_",
    "Constant",
    "Variable",
    "d",
];

/// A text of noise.
pub fn noise(random: &mut Random) -> Vec<u8> {
    let length = random.pick(&[0, 1, 2, 3, 10, 40, 120]);
    match random.below(4) {
        0 => (0..length).map(|_| random.number() as u8).collect(),
        1 => {
            let bytes = b"()()  \n\r\t;\"|:#xb01aF9_-";
            (0..length).map(|_| random.pick(bytes)).collect()
        }
        2 => {
            let words = (0..length).map(|_| odd_word(random) + " ");
            let words = words.collect();
            respaced(random, words)
        }
        _ => {
            let trees = trees(random, 0);
            respaced(random, trees)
        }
    }
}

/// A text with other white space here and there, ended in some way.
fn respaced(random: &mut Random, text: String) -> Vec<u8> {
    let mut text = text.into_bytes();
    spaces::respace(random, &mut text);
    text.extend(spaces::ending(random));
    text
}

/// A script whose first commands are sound and whose others, if any, are trees at random.
pub fn framed(random: &mut Random) -> Vec<u8> {
    let mut script = BEGIN.to_string();
    if random.percent(70) {
        script += FUNCTION;
    }
    if random.percent(80) {
        script += &trees(random, 0);
    }
    script += random.pick(&["(check-synth)", "(check-synth)", "", "(check-synth) x"]);
    respaced(random, script)
}

/// Some trees side by side, fewer the deeper they stand.
fn trees(random: &mut Random, depth: usize) -> String {
    let most = 6_usize.saturating_sub(depth);
    let count = random.between(usize::from(depth < 3), most);
    (0..count).map(|_| tree(random, depth)).collect()
}

/// A list, mostly with a head that begins lists, or a word; below the top mostly a word.
pub fn tree(random: &mut Random, depth: usize) -> String {
    if depth > 0 && random.percent(60) {
        return odd_word(random) + " ";
    }
    let head = match random.percent(80) {
        true => random.pick(&HEADS),
        false => "",
    };
    format!("( {head} {}) ", trees(random, depth + 1))
}
