//! Template files: their layout (Rules, section 4), and the sets that are timed.
use plain::file::File;
use seeds::Rng;
use std::collections::BTreeSet;

pub type Entry = [u8; 4];

/// The byte of a nonterminal on a right side.
pub fn symbol(nonterminal: u8) -> u8 {
    64 + nonterminal
}

/// What a file holds; `bytes` lays it out (Rules, section 4).
#[derive(Clone, Default)]
pub struct Set {
    pub names: u8,
    pub nonterminals: u8,
    pub states: u8,
    pub rules: BTreeSet<Entry>,
    pub schema: BTreeSet<Entry>,
    pub endings: BTreeSet<u8>,
}

impl Set {
    pub fn bytes(&self) -> Vec<u8> {
        let list = |entries: &BTreeSet<Entry>| entries.iter().copied().collect::<Vec<_>>();
        File {
            names: self.names,
            nonterminals: self.nonterminals,
            states: self.states,
            rules: &list(&self.rules),
            schema: &list(&self.schema),
            ending: &self.endings.iter().copied().collect::<Vec<_>>(),
        }
        .bytes()
    }
}

/// File K (Rules, section 11).
pub fn k() -> Set {
    Set {
        names: 2,
        nonterminals: 3,
        states: 2,
        rules: BTreeSet::from([[0, 2, 65, 32], [1, 2, 0, 66], [2, 2, 1, 33]]),
        schema: BTreeSet::from([[0, 0, 0, 1], [0, 0, 1, 0], [0, 1, 1, 1], [1, 0, 1, 1]]),
        endings: BTreeSet::from([1]),
    }
}

/// A schema of so many names, states and rules in which any elements may stand anywhere, and no template rule. State 0 takes every
/// name, and the other rules are random.
pub fn open_schema(names: u8, states: u8, rules: usize) -> Set {
    let mut numbers = Rng::new(rules as u64);
    let mut schema: BTreeSet<Entry> = (0..names).map(|a| [0, a, 0, 0]).collect();
    assert!(rules <= names as usize * (states as usize).pow(3));
    while schema.len() < rules {
        let [x, y, z] = [0; 3].map(|_: u8| numbers.below(states as usize) as u8);
        schema.insert([x, numbers.below(names as usize) as u8, y, z]);
    }
    let endings = (0..states).step_by(2).collect();
    Set {
        names,
        nonterminals: 1,
        states,
        schema,
        endings,
        ..Set::default()
    }
}

/// A schema of 4 names, 8 states and so many rules, of which all but the first 4 never apply: no word leads from state 7 to an ending
/// one. So a page has the same relations under each of them.
pub fn idle_schema(rules: usize) -> Set {
    let mut set = open_schema(4, 8, 4);
    let idle = (1..8).flat_map(|x| (0..8).flat_map(move |z| (0..4).map(move |a| [x, a, 7, z])));
    set.schema.extend(idle.take(rules - 4));
    set
}

/// A chain of 64 nonterminals that ends in one of four empty elements, or also in the empty string (Rules, section 11).
pub fn chain(with_empty: bool) -> Set {
    let mut rules: BTreeSet<Entry> = (0..63).map(|i| [i, 1, 65 + i, 255]).collect();
    rules.extend((0..4).map(|i| [63, 2, i, 32 + i]));
    if with_empty {
        rules.insert([63, 0, 255, 255]);
    }
    Set {
        names: 4,
        nonterminals: 64,
        states: 5,
        rules,
        schema: (0..4).map(|i| [0, i, 0, i + 1]).collect(),
        endings: (0..5).collect(),
    }
}
