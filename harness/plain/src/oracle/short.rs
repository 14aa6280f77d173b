//! The short strings of a grammar, whatever the height of their trees and the length of its rules.

use super::trees::Cap;
use crate::file::Wide;
use std::collections::BTreeSet;

/// The strings of one nonterminal.
pub type Words = BTreeSet<Vec<u8>>;

/// All strings of each nonterminal with at most so many tags as the cap has; none where they are more than it has. A part of a short
/// string is short, so the rules are used until they give nothing new.
pub fn short<const W: usize>(file: &Wide<W>, cap: Cap) -> Option<Vec<Words>> {
    let mut words = vec![Words::new(); file.nonterminals as usize];
    loop {
        let mut grown = words.clone();
        for rule in file.rules {
            let right = &rule[2..2 + rule[1] as usize];
            grown[rule[0] as usize].extend(in_a_row(&words, right, cap)?);
        }
        if grown.iter().any(|of| of.len() > cap.strings) {
            return None;
        }
        if grown == words {
            return Some(words);
        }
        words = grown;
    }
}

/// The short strings of symbols in a row.
fn in_a_row(words: &[Words], symbols: &[u8], cap: Cap) -> Option<Words> {
    let mut whole = Words::from([Vec::new()]);
    for &symbol in symbols {
        let own = Words::from([vec![symbol]]);
        let ends = match symbol {
            0..=63 => &own,
            _ => &words[symbol as usize - 64],
        };
        let pairs = whole
            .iter()
            .flat_map(|word| ends.iter().map(move |end| [&word[..], end].concat()));
        whole = pairs.filter(|word| word.len() <= cap.tags).collect();
        if whole.len() > 4 * cap.strings {
            return None;
        }
    }
    Some(whole)
}
