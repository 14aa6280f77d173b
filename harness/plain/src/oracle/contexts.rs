//! Pages around a string of any useful nonterminal.

use super::trees::Cap;
use crate::file::File;

/// Around each useful nonterminal some strings, left and right, that make a page of it; none where
/// they grow past the cap.
pub fn contexts(file: &File, cap: Cap) -> Vec<Option<(Vec<u8>, Vec<u8>)>> {
    let some = some_strings(file, cap);
    let mut contexts = vec![None; file.nonterminals as usize];
    contexts[0] = Some((Vec::new(), Vec::new()));
    for _ in 0..file.nonterminals {
        for rule in file.rules {
            let symbols = &rule[2..2 + rule[1] as usize];
            let Some(around) = contexts[rule[0] as usize].clone() else {
                continue;
            };
            for (at, &symbol) in symbols.iter().enumerate() {
                let inner = inner_context(&some, &around, symbols, at);
                if symbol >= 64 && contexts[symbol as usize - 64].is_none() {
                    contexts[symbol as usize - 64] =
                        inner.filter(|c| c.0.len() + c.1.len() <= cap.tags);
                }
            }
        }
    }
    contexts
}

/// The context of the symbol at `at`, from the whole rule's and from strings of its neighbours.
fn inner_context(
    some: &[Option<Vec<u8>>],
    around: &(Vec<u8>, Vec<u8>),
    symbols: &[u8],
    at: usize,
) -> Option<(Vec<u8>, Vec<u8>)> {
    let string = |symbol: &u8| match symbol {
        0..=63 => Some(vec![*symbol]),
        _ => some[*symbol as usize - 64].clone(),
    };
    some_string(&string, &symbols[at..=at])?;
    let left = some_string(&string, &symbols[..at])?;
    let right = some_string(&string, &symbols[at + 1..])?;
    Some((
        [around.0.clone(), left].concat(),
        [right, around.1.clone()].concat(),
    ))
}

fn some_string(string: &dyn Fn(&u8) -> Option<Vec<u8>>, symbols: &[u8]) -> Option<Vec<u8>> {
    let parts: Option<Vec<_>> = symbols.iter().map(string).collect();
    Some(parts?.concat())
}

/// One string of each nonterminal, of a lowest tree; none where there is none within the cap.
fn some_strings(file: &File, cap: Cap) -> Vec<Option<Vec<u8>>> {
    let mut some: Vec<Option<Vec<u8>>> = vec![None; file.nonterminals as usize];
    for _ in 0..file.nonterminals {
        let known = some.clone();
        let string = |symbol: &u8| match symbol {
            0..=63 => Some(vec![*symbol]),
            _ => known[*symbol as usize - 64].clone(),
        };
        for rule in file.rules {
            if some[rule[0] as usize].is_none() {
                let whole = some_string(&string, &rule[2..2 + rule[1] as usize]);
                some[rule[0] as usize] = whole.filter(|word| word.len() <= cap.tags);
            }
        }
    }
    some
}
