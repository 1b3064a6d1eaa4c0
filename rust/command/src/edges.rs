//! Edge values: numbers at which terms tend to change, from the literals of the two texts and from the sorts.

use crate::pieces::{pieces, Piece};
use simple::eval::Value;
use simple::operators::Sort;
use simple::tree::{trees, Tree};
use simple::words;
use std::collections::HashSet;

/// A literal: its width and its bits.
pub type Literal = (u32, u64);

/// The bit-vector literals of texts, each once, in their order.
pub fn literals(texts: &[&[u8]]) -> Vec<Literal> {
    let read = |text: &&[u8]| trees(words::read(text, usize::MAX).unwrap_or_default());
    let pieces = |tree: Tree| pieces(&tree);
    let literal = |piece: Piece| match piece.value {
        Some(Value::Bits { width, bits }) => Some((width, bits)),
        _ => None,
    };
    let literals = texts.iter().flat_map(read).flat_map(pieces);
    let literals = literals.filter_map(literal);
    let mut known = HashSet::new();
    literals.filter(|one| known.insert(*one)).collect()
}

/// The edge values of a sort, each once, what is likelier to matter first: the literals at its width, their neighbours, their complements, their halves; then
/// 0, 1, all ones, the highest bit, its neighbours, and small numbers.
pub fn edges(sort: Sort, literals: &[Literal]) -> Vec<u64> {
    let greatest = sort.greatest();
    let highest = greatest / 2 + 1;
    let mut edges = Vec::new();
    if let Sort::BitVec(width) = sort {
        let parts: Vec<u64> = literals.iter().flat_map(|&one| parts(width, one)).collect();
        edges.extend(&parts);
        edges.extend(parts.iter().map(|part| part.wrapping_add(1)));
        edges.extend(parts.iter().map(|part| part.wrapping_sub(1)));
        edges.extend(parts.iter().map(|part| !part));
        let half = width.div_ceil(2);
        edges.extend(parts.iter().map(|part| part >> half));
        edges.extend(parts.iter().map(|part| part << half));
        edges.extend(parts.iter().map(|part| part & (greatest >> half)));
    }
    edges.extend([0, 1, greatest, highest, highest - 1, greatest - 1]);
    let small = [2, 3, 4, 5, 7, 8, 15, 16, 255, 256];
    edges.extend(small.into_iter().filter(|small| *small <= greatest));
    let mut known = HashSet::new();
    let edges = edges.into_iter().map(|edge| edge & greatest);
    edges.filter(|edge| known.insert(*edge)).collect()
}

/// A literal at another width: a narrower one low and high in the word, a wider one's low and high parts.
pub fn parts(width: u32, (own, bits): Literal) -> Vec<u64> {
    match own.cmp(&width) {
        std::cmp::Ordering::Less => vec![bits, bits << (width - own)],
        std::cmp::Ordering::Equal => vec![bits],
        std::cmp::Ordering::Greater => vec![bits, bits >> (own - width)],
    }
}

#[cfg(test)]
mod tests {
    use super::*;

    #[test]
    fn literals_of_texts_come_once() {
        let found = literals(&[b"(a #x0F #b1 #x0f) ; #xff", b"#b1 #b00001111 #x1"]);
        assert_eq!(found, [(8, 15), (1, 1), (4, 1)]);
        let found = literals(&[b"(bv7 (_ bv200 8) ((_ extract 3 0) #xC8) (_ bv3 2) (_ bv4 2))"]);
        assert_eq!(found, [(8, 200), (2, 3)]);
        assert!(literals(&[b"(#x0"]).is_empty());
    }

    #[test]
    fn edges_begin_with_the_literals() {
        let edges8 = edges(Sort::BitVec(8), &[(8, 10)]);
        assert_eq!(edges8[..7], [10, 11, 9, 245, 0, 160, 1]);
        assert_eq!(edges(Sort::Bool, &[(8, 10)]), [0, 1]);
        let wide = edges(Sort::BitVec(16), &[(8, 0xab), (32, 0x1234_5678)]);
        assert_eq!(wide[..4], [0xab, 0xab00, 0x5678, 0x1234]);
        for sort in [Sort::BitVec(1), Sort::BitVec(64)] {
            let edges = edges(sort, &[(64, u64::MAX)]);
            assert!(edges.iter().all(|&edge| edge <= sort.greatest()));
            assert!(edges.contains(&0) && edges.contains(&1));
        }
    }
}
