//! The strings of a grammar's trees by height, and its useful nonterminals.

use crate::file::File;
use std::collections::BTreeSet;

/// How much is enumerated before giving up.
#[derive(Clone, Copy)]
pub struct Cap {
    /// Strings of one nonterminal.
    pub strings: usize,
    /// Tags of one string.
    pub tags: usize,
}

/// The strings of each nonterminal's trees up to some height.
#[derive(Clone, Debug, PartialEq, Eq)]
pub struct Strings(pub Vec<BTreeSet<Vec<u8>>>);

impl Strings {
    /// No tree has height 0.
    pub fn none(file: &File) -> Self {
        Strings(vec![BTreeSet::new(); file.nonterminals as usize])
    }

    /// The strings of trees at most one higher; none past the cap.
    pub fn higher(&self, file: &File, cap: Cap) -> Option<Self> {
        let mut next = Strings::none(file);
        for rule in file.rules {
            let rights = &rule[2..2 + rule[1] as usize];
            let mut words: Vec<Vec<u8>> = vec![Vec::new()];
            for &symbol in rights {
                words = self.append(&words, symbol, cap)?;
            }
            let of = &mut next.0[rule[0] as usize];
            of.extend(words);
            if of.len() > cap.strings {
                return None;
            }
        }
        Some(next)
    }

    fn append(&self, words: &[Vec<u8>], symbol: u8, cap: Cap) -> Option<Vec<Vec<u8>>> {
        let own = BTreeSet::from([vec![symbol]]);
        let ends = match symbol {
            0..=63 => &own,
            _ => &self.0[symbol as usize - 64],
        };
        if words.len() * ends.len() > 4 * cap.strings {
            return None;
        }
        let pairs = words
            .iter()
            .flat_map(|word| ends.iter().map(move |end| (word, end)));
        let whole: Vec<Vec<u8>> = pairs.map(|(word, end)| [&word[..], end].concat()).collect();
        whole
            .iter()
            .all(|word| word.len() <= cap.tags)
            .then_some(whole)
    }
}

/// The nonterminals that derive some string: a shortest tree repeats none on a path, so its height
/// is at most their number.
pub fn productive(file: &File) -> Vec<bool> {
    let mut so = vec![false; file.nonterminals as usize];
    for _ in 0..file.nonterminals {
        for rule in file.rules {
            if symbols(rule).all(|n| so[n]) {
                so[rule[0] as usize] = true;
            }
        }
    }
    so
}

/// The useful ones: productive, and reached from the start through rules of productive ones.
pub fn useful(file: &File) -> Vec<bool> {
    let productive = productive(file);
    let mut so = vec![false; file.nonterminals as usize];
    so[0] = productive[0];
    for _ in 0..file.nonterminals {
        for rule in file.rules {
            if so[rule[0] as usize] && symbols(rule).all(|n| productive[n]) {
                symbols(rule).for_each(|n| so[n] = true);
            }
        }
    }
    so
}

/// The nonterminals on the right of a rule.
pub fn symbols(rule: &[u8; 4]) -> impl Iterator<Item = usize> + '_ {
    let used = &rule[2..2 + rule[1] as usize];
    used.iter().filter(|&&s| s >= 64).map(|&s| s as usize - 64)
}
