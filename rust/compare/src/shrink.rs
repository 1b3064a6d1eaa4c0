//! Makes a case on which the checkers part smaller while they still part in the same way.

use crate::judge::{judged, Disagreement};
use crate::trial::Trial;
use std::io;
use std::ops::Range;
use sverdhyll::Library;

/// How often a smaller case is tried.
const MOST_TRIES: usize = 4_000;
/// The most bytes that are taken out at once where they are no tree.
const MOST_BYTES: usize = 16;

/// A text of a case.
type Text = fn(&mut Trial) -> &mut Vec<u8>;

/// The search for a smaller case.
struct Search<'a> {
    library: &'a mut Library,
    disagreement: &'a Disagreement,
    best: Trial,
    tries: usize,
}

/// A smaller case with a disagreement of the same kind.
pub fn shrunk(
    library: &mut Library,
    trial: &Trial,
    disagreement: &Disagreement,
) -> io::Result<Trial> {
    let mut search = Search {
        library,
        disagreement,
        best: trial.clone(),
        tries: 0,
    };
    search.try_without_points()?;
    let texts: [Text; 2] = [
        |trial| &mut trial.case.response,
        |trial| &mut trial.case.script,
    ];
    for text in [texts, texts].concat() {
        search.prune(text)?;
    }
    for text in texts {
        search.shorten(text)?;
    }
    Ok(search.best)
}

/// The trees of a text by its brackets alone, the longest first.
fn trees(text: &[u8]) -> Vec<Range<usize>> {
    let mut trees = Vec::new();
    let mut open = Vec::new();
    let mut word = 0;
    for (at, byte) in text.iter().chain(b" ").enumerate() {
        let apart = matches!(byte, b'(' | b')') || byte.is_ascii_whitespace();
        if apart && word < at {
            trees.push(word..at);
        }
        if apart {
            word = at + 1;
        }
        match byte {
            b'(' => open.push(at),
            b')' => trees.extend(open.pop().map(|start| start..at + 1)),
            _ => {}
        }
    }
    trees.sort_by_key(|tree| (usize::MAX - tree.len(), tree.start));
    trees
}

impl Search<'_> {
    /// Takes a case if the checkers still part on it.
    fn attempt(&mut self, smaller: Trial) -> io::Result<bool> {
        self.tries += 1;
        let parts = match judged(self.library, &smaller)? {
            Err(disagreement) => disagreement.is_like(self.disagreement),
            Ok(_) => false,
        };
        if parts {
            self.best = smaller;
        }
        Ok(parts)
    }

    /// Tries without points.
    fn try_without_points(&mut self) -> io::Result<()> {
        let mut smaller = self.best.clone();
        smaller.case.points.clear();
        self.attempt(smaller).map(drop)
    }

    /// Tries a text with a stretch of it replaced by another one.
    fn try_replaced(&mut self, text: Text, from: &Range<usize>, to: &[u8]) -> io::Result<bool> {
        let mut smaller = self.best.clone();
        text(&mut smaller).splice(from.clone(), to.iter().copied());
        self.attempt(smaller)
    }

    /// Takes trees out of a text, or puts a part of a tree in its place, the longest trees first.
    fn prune(&mut self, text: Text) -> io::Result<()> {
        let mut index = 0;
        while self.tries < MOST_TRIES {
            let bytes = text(&mut self.best).clone();
            let trees = trees(&bytes);
            let Some(tree) = trees.get(index) else {
                break;
            };
            let within = |part: &&Range<usize>| tree.start < part.start && part.end < tree.end;
            let parts = trees.iter().filter(within).take(4);
            let mut smaller = self.try_replaced(text, tree, b"")?;
            for part in parts {
                smaller = smaller || self.try_replaced(text, tree, &bytes[part.clone()])?;
            }
            index += usize::from(!smaller);
        }
        Ok(())
    }

    /// Takes stretches of few bytes out of a text, ever shorter ones.
    fn shorten(&mut self, text: Text) -> io::Result<()> {
        let mut length = MOST_BYTES;
        while length > 0 {
            let mut at = 0;
            while self.tries < 2 * MOST_TRIES && at < text(&mut self.best).len() {
                let end = (at + length).min(text(&mut self.best).len());
                if !self.try_replaced(text, &(at..end), b"")? {
                    at += length;
                }
            }
            length /= 2;
        }
        Ok(())
    }
}
