//! White space and comments of all kinds, so that places have lines and columns of all kinds.

use super::random::Random;

/// What may stand between two words, comments apart.
const BLANKS: [&[u8]; 9] = [
    b"\n", b"\n", b"\r\n", b"\r", b"\t", b"  ", b"\n\n", b"\n\t ", b"\r\r",
];
/// What may end a comment.
const ENDS: [&[u8]; 4] = [b"\n", b"\r", b"\r", b"\r\n"];

/// White space or a comment with its end, to stand between two words.
pub fn gap(random: &mut Random) -> Vec<u8> {
    if random.percent(75) {
        return random.pick(&BLANKS).to_vec();
    }
    let mut gap = comment(random);
    gap.extend(random.pick(&ENDS));
    gap
}

/// What stands behind the last word: nothing, white space, or a comment with or without its end.
pub fn ending(random: &mut Random) -> Vec<u8> {
    match random.below(8) {
        0 | 1 => Vec::new(),
        2..=5 => b"\n".to_vec(),
        6 => gap(random),
        _ => [gap(random), comment(random)].concat(),
    }
}

/// A comment without its end: words, or bytes of which many are above 127.
fn comment(random: &mut Random) -> Vec<u8> {
    let length = random.below(12);
    match random.percent(40) {
        true => b"; ) \"a comment\" |( \xff ".to_vec(),
        false => filled(random, length + 1),
    }
}

/// A comment of so many bytes, of which many are above 127, without its end.
pub fn filled(random: &mut Random, bytes: usize) -> Vec<u8> {
    let byte = |_| match random.percent(60) {
        true => random.between(128, 255) as u8,
        false => random.pick(b";(\"\t\x0b\x00 a"),
    };
    let mut comment: Vec<u8> = (0..bytes).map(byte).collect();
    if let Some(first) = comment.first_mut() {
        *first = b';';
    }
    comment
}

/// So many bytes of white space.
pub fn blank(random: &mut Random, bytes: usize) -> Vec<u8> {
    (0..bytes).map(|_| random.pick(b"\n\r\t ")).collect()
}

/// Makes other white space of some spaces and line ends of a text, often of none; its length stays.
pub fn respace(random: &mut Random, text: &mut [u8]) {
    let percent = random.pick(&[0, 0, 10, 40]);
    for byte in text {
        if matches!(byte, b' ' | b'\n') && random.percent(percent) {
            *byte = random.pick(b"\n\r\t ");
        }
    }
}
