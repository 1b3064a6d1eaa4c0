//! The words of a text as trees: a tree is a word or a bracketed list of trees.

use crate::words::{Kind, Word};
use std::fmt;

/// A word that is no bracket, or a list with its two brackets' places.
#[derive(Clone, Debug)]
pub enum Tree {
    Leaf(Word),
    List {
        open: usize,
        items: Vec<Tree>,
        close: usize,
    },
}

/// The trees of a text whose brackets match.
pub fn trees(words: Vec<Word>) -> Vec<Tree> {
    let mut words = words.into_iter();
    let (trees, _) = trees_to_close(&mut words);
    trees
}

/// The trees up to the next bracket that closes, with its place, or up to the end.
fn trees_to_close(words: &mut impl Iterator<Item = Word>) -> (Vec<Tree>, Option<usize>) {
    let mut trees = Vec::new();
    while let Some(word) = words.next() {
        match word.kind {
            Kind::Close => return (trees, Some(word.start)),
            Kind::Open => {
                let (items, close) = trees_to_close(words);
                trees.push(Tree::List {
                    open: word.start,
                    items,
                    close: close.expect("brackets match"),
                });
            }
            _ => trees.push(Tree::Leaf(word)),
        }
    }
    (trees, None)
}

impl Tree {
    /// The offset of the first word, for a list its bracket.
    pub fn start(&self) -> usize {
        match self {
            Tree::Leaf(word) => word.start,
            Tree::List { open, .. } => *open,
        }
    }

    /// The offset behind the last word.
    pub fn end(&self) -> usize {
        match self {
            Tree::Leaf(word) => word.start + word.text.len(),
            Tree::List { close, .. } => close + 1,
        }
    }

    /// The text of a symbol.
    pub fn symbol(&self) -> Option<&str> {
        match self {
            Tree::Leaf(word) if word.kind == Kind::Symbol => Some(&word.text),
            _ => None,
        }
    }

    /// The text of a keyword.
    pub fn keyword(&self) -> Option<&str> {
        match self {
            Tree::Leaf(word) if word.kind == Kind::Keyword => Some(&word.text),
            _ => None,
        }
    }

    /// The value of a numeral.
    pub fn numeral(&self) -> Option<u32> {
        match self {
            Tree::Leaf(word) => match word.kind {
                Kind::Numeral(value) => Some(value),
                _ => None,
            },
            Tree::List { .. } => None,
        }
    }

    /// The items of a list.
    pub fn items(&self) -> Option<&[Tree]> {
        match self {
            Tree::List { items, .. } => Some(items),
            Tree::Leaf(_) => None,
        }
    }

    /// All words of the tree with their places, brackets included.
    pub fn words(&self) -> Vec<(usize, &str)> {
        match self {
            Tree::Leaf(word) => vec![(word.start, &word.text)],
            Tree::List { open, items, close } => {
                let mut words = vec![(*open, "(")];
                words.extend(items.iter().flat_map(Tree::words));
                words.push((*close, ")"));
                words
            }
        }
    }

    /// Whether two trees have the same words: "Apart from literals, derivations still compare terms as written".
    pub fn same_words(&self, other: &Tree) -> bool {
        match (self, other) {
            (Tree::Leaf(a), Tree::Leaf(b)) => a.text == b.text,
            (Tree::List { items: a, .. }, Tree::List { items: b, .. }) => {
                a.len() == b.len() && a.iter().zip(b).all(|(a, b)| a.same_words(b))
            }
            _ => false,
        }
    }
}

impl fmt::Display for Tree {
    /// Its words on one line.
    fn fmt(&self, to: &mut fmt::Formatter) -> fmt::Result {
        let words = self.words().into_iter();
        to.write_str(&joined(words.map(|(_, word)| word)))
    }
}

/// Words on one line, with single spaces and none inside brackets.
pub fn joined<'a>(words: impl IntoIterator<Item = &'a str>) -> String {
    let mut line = String::new();
    for word in words {
        if !line.is_empty() && !line.ends_with('(') && word != ")" {
            line.push(' ');
        }
        line.push_str(word);
    }
    line
}
