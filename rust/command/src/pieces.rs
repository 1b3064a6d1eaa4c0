//! The pieces of a term: its words, but each literal as one piece, however it is written.

use simple::eval::{literal_value, Value};
use simple::tree::Tree;
use std::ops::Range;

/// A word of a term, or a literal with all its words.
#[derive(Clone, Debug)]
pub struct Piece {
    /// Where it stands in the text.
    pub at: Range<usize>,
    /// How it is written, with single spaces.
    pub text: String,
    /// The value of a literal.
    pub value: Option<Value>,
}

impl Piece {
    /// Whether two pieces are the same to a derivation: literals by value and width, all else as it is written.
    pub fn same(&self, other: &Piece) -> bool {
        match (self.value, other.value) {
            (None, None) => self.text == other.text,
            (own, other) => own == other,
        }
    }
}

/// The pieces of a tree in the order of the text.
pub fn pieces(tree: &Tree) -> Vec<Piece> {
    let bracket = |start: usize, text: &str| Piece {
        at: start..start + 1,
        text: text.to_string(),
        value: None,
    };
    match (literal_value(tree), tree) {
        (None, Tree::List { open, items, close }) => {
            let mut pieces = vec![bracket(*open, "(")];
            pieces.extend(items.iter().flat_map(self::pieces));
            pieces.push(bracket(*close, ")"));
            pieces
        }
        (value, _) => vec![Piece {
            at: tree.start()..tree.end(),
            text: tree.to_string(),
            value,
        }],
    }
}

#[cfg(test)]
mod tests {
    use super::*;
    use simple::{tree, words};

    #[test]
    fn a_literal_is_one_piece() {
        let text = b"((_ extract 7 4) (bv5 (_ bv5\n 8) #x05 (_ bv256 8)))";
        let words = words::read(text, usize::MAX).expect("sound words");
        let pieces = pieces(&tree::trees(words)[0]);
        let texts: Vec<&str> = pieces.iter().map(|piece| piece.text.as_str()).collect();
        let spaced = "( ( _ extract 7 4 ) ( bv5 |(_ bv5 8)| #x05 ( _ bv256 8 ) ) )";
        assert_eq!(texts.join(" "), spaced.replace('|', ""));
        assert_eq!(
            (pieces[9].text.as_str(), pieces[9].at.clone()),
            ("(_ bv5 8)", 22..32)
        );
        assert!(pieces[9].same(&pieces[10]) && !pieces[8].same(&pieces[9]));
    }
}
