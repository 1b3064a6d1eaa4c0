//! The word that was probably meant.

/// At most so many letters of a word are wrong for another one to be meant.
const MOST_WRONG: usize = 2;

/// The nearest of some words to a word, where it is near enough that it was probably meant.
pub fn meant<'a>(word: &str, known: impl Iterator<Item = &'a str>) -> Option<&'a str> {
    let near = known.map(|one| (distance(word, one), one));
    let near = near.filter(|(distance, one)| *distance <= MOST_WRONG && distance * 2 < one.len());
    near.min_by_key(|(distance, _)| *distance).map(|(_, one)| one)
}

/// `: did you mean ..?`, where some word is near enough.
pub fn question<'a>(word: &str, known: impl Iterator<Item = &'a str>) -> String {
    meant(word, known).map_or(String::new(), |one| format!(": did you mean `{one}`?"))
}

/// How many letters must be put in, left out or changed to make one word of another.
fn distance(from: &str, to: &str) -> usize {
    let mut row: Vec<usize> = (0..=to.len()).collect();
    for (index, letter) in from.bytes().enumerate() {
        row = next_row(&row, index + 1, letter.to_ascii_lowercase(), to);
    }
    row[to.len()]
}

/// The distances of one letter more to all beginnings of a word.
fn next_row(row: &[usize], first: usize, letter: u8, to: &str) -> Vec<usize> {
    let mut next = vec![first];
    for (index, other) in to.bytes().enumerate() {
        let changed = row[index] + usize::from(letter != other.to_ascii_lowercase());
        next.push(changed.min(row[index + 1] + 1).min(next[index] + 1));
    }
    next
}

#[cfg(test)]
mod tests {
    use super::*;

    #[test]
    fn words_that_are_near() {
        let known = ["synth-fun", "constraint", "W", "Word"];
        for (word, expected) in [
            ("synth_fun", Some("synth-fun")),
            ("constrain", Some("constraint")),
            ("Wrod", None),
            ("word", Some("Word")),
            ("V", None),
            ("assert", None),
        ] {
            assert_eq!(meant(word, known.into_iter()), expected, "{word}");
        }
    }
}
