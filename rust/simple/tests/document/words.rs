//! "Words of both texts" and the enquiry.

use crate::{answer, in_script};
use simple::word;

#[test]
fn a_word_of_wrong_form_is_2_and_one_too_long_is_4() {
    let table = [
        ("00", 2),
        ("01", 2),
        ("1a", 2),
        ("0a", 2),
        ("5.0", 2),
        ("#", 2),
        ("#x", 2),
        ("#b", 2),
        ("#xg", 2),
        ("#b2", 2),
        ("#X0", 2),
        ("a'b", 2),
        ("a\"", 2),
        ("a|", 2),
        ("a:", 2),
        ("é", 2),
        ("\u{b}", 2),
        ("\"", 6),
        ("|a|", 6),
        (":a", 6),
        ("1000000000", 4),
        ("#x00000000000000000", 4),
        ("999999999", 5),
        ("0", 5),
        ("#x0123456789abcdEF", 5),
        ("~!@$%^&*_-+=<>.?/aZ09", 5),
    ];
    for (word, number) in table {
        assert_eq!(answer(word, "", &[], 0), in_script(number, 0), "{word}");
    }
}

#[test]
fn brackets_are_matched_after_the_words() {
    assert_eq!(answer("a)", "", &[], 0), in_script(3, 1));
    assert_eq!(answer("(a ", "", &[], 0), in_script(3, 3));
    assert_eq!(answer("(a 00", "", &[], 0), in_script(2, 3));
    assert_eq!(answer("(a \"", "", &[], 0), in_script(6, 3));
}

#[test]
fn a_comment_may_hold_any_byte_and_ends_at_10_or_13() {
    assert_eq!(answer(";)\"\r00", "", &[], 0), in_script(2, 4));
    assert_eq!(answer(";)\"\n00", "", &[], 0), in_script(2, 4));
    assert_eq!(answer(";)\"\t00", "", &[], 0), in_script(5, 6));
}

#[test]
fn an_enquiry_gives_the_word_that_starts_there() {
    let text = b"(ab \"c d;e f\ng)#x";
    let lengths: Vec<usize> = (0..text.len() + 3).map(|at| word(text, at)).collect();
    let expected = [1, 2, 0, 0, 2, 0, 0, 1, 0, 0, 0, 0, 0, 1, 1, 2, 0, 0, 0, 0];
    assert_eq!(lengths, expected);
    assert_eq!(word(b"", 0), 0);
    assert_eq!(word(&[b'a'; 40_000], 0), 40_000);
}
