//! Which nonterminals are useful, and the rules that trees under them can use.

use crate::file::File;
use std::collections::BTreeMap;

/// Nonterminals as bits.
pub type Set = u64;

/// A right side of 0, 1 or 2 symbols, as written in the file.
pub type Right = [u8; 2];

/// The nonterminal that a symbol is, if it is one.
fn nonterminal(symbol: u8) -> Option<u8> {
    (64..128).contains(&symbol).then(|| symbol - 64)
}

/// The nonterminals of a rule's right side.
fn needs(rule: &[u8; 4]) -> Set {
    let of = |symbol| nonterminal(symbol).map_or(0, |n| 1 << n);
    of(rule[2]) | of(rule[3])
}

/// The nonterminals that derive some tag string.
pub fn productive(rules: &[[u8; 4]]) -> Set {
    closure(0, |set| {
        let made = rules.iter().filter(|rule| needs(rule) & !set == 0);
        made.fold(set, |sum, rule| sum | 1 << rule[0])
    })
}

/// The nonterminals reached from the start through rules of productive symbols alone.
fn reached(rules: &[[u8; 4]], productive: Set) -> Set {
    closure(1, |set| {
        let open = rules
            .iter()
            .filter(|rule| set >> rule[0] & 1 == 1 && needs(rule) & !productive == 0);
        open.fold(set, |sum, rule| sum | needs(rule))
    })
}

fn closure(mut set: Set, step: impl Fn(Set) -> Set) -> Set {
    loop {
        let next = step(set);
        if next == set {
            return set;
        }
        set = next;
    }
}

/// For each right side that a tree under a useful nonterminal can have, its left sides; none where
/// the start derives no page.
pub fn useful_rules(file: &File) -> Option<BTreeMap<Right, Vec<u8>>> {
    let productive = productive(file.rules);
    if productive & 1 == 0 {
        return None;
    }
    let reached = reached(file.rules, productive);
    let mut lefts: BTreeMap<Right, Vec<u8>> = BTreeMap::new();
    for rule in file.rules {
        if reached >> rule[0] & 1 == 1 && needs(rule) & !productive == 0 {
            lefts.entry([rule[2], rule[3]]).or_default().push(rule[0]);
        }
    }
    Some(lefts)
}
