//! Long rules split up: a grammar of rules of any length, and of as many nonterminals as it takes, is brought to two symbols a rule by
//! working off a list. Only what comes out is held against the limits of a file.

use crate::file::{File, Long, LONG_RULE, RULE};
use crate::{NONTERMINALS, RULES};
use std::collections::VecDeque;

#[derive(Clone, Copy)]
enum Symbol {
    Tag(u8),
    Nonterminal(usize),
}

struct Rule {
    left: usize,
    right: Vec<Symbol>,
}

/// The ordinary file of the same templates; none where it would have too many nonterminals or rules.
pub fn split(long: &Long) -> Option<Vec<u8>> {
    let (nonterminals, rules) = shortened(long.nonterminals as usize, rules(long));
    if nonterminals > NONTERMINALS || rules.len() > RULES {
        return None;
    }
    let mut entries: Vec<[u8; RULE]> = rules.iter().map(entry).collect();
    entries.sort();
    let file = File {
        names: long.names,
        nonterminals: nonterminals as u8,
        states: long.states,
        rules: &entries,
        schema: long.schema,
        ending: long.ending,
    };
    Some(file.bytes())
}

/// The rules as the file lists them.
fn rules(long: &Long) -> VecDeque<Rule> {
    let symbol = |&byte: &u8| match byte {
        0..=63 => Symbol::Tag(byte),
        _ => Symbol::Nonterminal(byte as usize - 64),
    };
    let rule = |entry: &[u8; LONG_RULE]| Rule {
        left: entry[0] as usize,
        right: entry[2..][..entry[1] as usize].iter().map(symbol).collect(),
    };
    long.rules.iter().map(rule).collect()
}

/// The first rule of the list is taken off; of a long one the first symbol is kept, and what is left goes back to the front of the list
/// under a nonterminal of its own. Gives the number of nonterminals, and the rules as they were done.
fn shortened(mut nonterminals: usize, mut todo: VecDeque<Rule>) -> (usize, Vec<Rule>) {
    let mut done = Vec::new();
    while let Some(mut rule) = todo.pop_front() {
        if rule.right.len() > 2 {
            let right = rule.right.split_off(1);
            rule.right.push(Symbol::Nonterminal(nonterminals));
            todo.push_front(Rule {
                left: nonterminals,
                right,
            });
            nonterminals += 1;
        }
        done.push(rule);
    }
    (nonterminals, done)
}

/// A rule of at most two symbols as an entry, within the limits of a file.
fn entry(rule: &Rule) -> [u8; RULE] {
    let byte = |symbol: &Symbol| match *symbol {
        Symbol::Tag(tag) => tag,
        Symbol::Nonterminal(n) => 64 + n as u8,
    };
    let mut entry = [rule.left as u8, rule.right.len() as u8, 255, 255];
    for (place, symbol) in entry[2..].iter_mut().zip(&rule.right) {
        *place = byte(symbol);
    }
    entry
}
