//! What the states of a schema derive, by its rules alone.

use super::words::{is_one_element, outermost, Balanced};
use crate::file::File;
use std::collections::HashMap;

/// Derivations over one word, remembered.
pub struct Derivations<'a> {
    file: &'a File<'a>,
    word: &'a [u8],
    known: HashMap<(u8, usize, usize, Option<u8>), bool>,
}

impl<'a> Derivations<'a> {
    pub fn new(file: &'a File<'a>, word: &'a [u8]) -> Self {
        Derivations {
            file,
            word,
            known: HashMap::new(),
        }
    }

    /// Whether `state` derives the part from i up to j, followed by the state `last` where there is
    /// one, and by nothing where there is none.
    pub fn part(&mut self, state: u8, i: usize, j: usize, last: Option<u8>) -> bool {
        if i == j {
            return match last {
                Some(last) => state == last,
                None => self.file.ending.contains(&state),
            };
        }
        if let Some(&so) = self.known.get(&(state, i, j, last)) {
            return so;
        }
        let so = (i + 1..j).any(|k| self.split(state, i, k, j, last));
        self.known.insert((state, i, j, last), so);
        so
    }

    /// The same with the first element ending at k.
    fn split(&mut self, state: u8, i: usize, k: usize, j: usize, last: Option<u8>) -> bool {
        let name = self.word[i];
        if name >= 32 || self.word[k] != name + 32 {
            return false;
        }
        let schema = self.file.schema;
        schema.iter().any(|&[x, a, y, z]| {
            x == state && a == name && self.part(y, i + 1, k, None) && self.part(z, k + 1, j, last)
        })
    }

    /// The relation of the part from i up to j: bit 8·X+Z where X derives it followed by Z.
    pub fn relation(&mut self, i: usize, j: usize) -> u64 {
        let mut relation = 0;
        for x in 0..self.file.states {
            for z in 0..self.file.states {
                if self.part(x, i, j, Some(z)) {
                    relation |= 1 << (8 * x + z);
                }
            }
        }
        relation
    }
}

/// Whether a page is valid: balanced, derived by state 0, and one element.
pub fn valid(file: &File, page: &[u8]) -> bool {
    Balanced::of(page).holds(0, page.len())
        && Derivations::new(file, page).part(0, 0, page.len(), None)
        && is_one_element(page)
}

/// What a summary has of each balanced string: its relation, and its outermost elements, 2 for two and for more.
pub type Piece = (u64, usize);

/// The summary of a word that is not mismatched: its unmatched tags, and what it has of the balanced strings before, between and
/// after them.
pub fn summary(file: &File, word: &[u8]) -> (Vec<u8>, Vec<Piece>) {
    let kept = super::words::reduced(word);
    let mut derivations = Derivations::new(file, word);
    let mut pieces = Vec::new();
    let mut from = 0;
    for to in kept.iter().copied().chain([word.len()]) {
        let elements = outermost(&word[from..to]).len();
        pieces.push((derivations.relation(from, to), elements.min(2)));
        from = to + 1;
    }
    (kept.into_iter().map(|place| word[place]).collect(), pieces)
}
