//! Schemas (Rules, section 3): those that the rules name, and random ones.
use plain::file::File;
use seeds::Rng;
use std::collections::BTreeSet;

/// A rule X, a, Y, Z: from state X an element a, with Y inside it and Z behind it.
pub type Rule = [u8; 4];

/// A regular hedge grammar. State 0 is the start; rules and endings ascend.
#[derive(Clone, Debug)]
pub struct Schema {
    pub label: String,
    pub names: u8,
    pub states: u8,
    pub rules: Vec<Rule>,
    pub endings: Vec<u8>,
    /// How deep its pages may nest for xmllint and jing to answer in time.
    pub deepest: usize,
}

impl Schema {
    fn new(label: &str, names: u8, states: u8, rules: &[Rule], endings: &[u8]) -> Schema {
        let rules: BTreeSet<Rule> = rules.iter().copied().collect();
        let endings: BTreeSet<u8> = endings.iter().copied().collect();
        Schema {
            label: label.to_string(),
            names,
            states,
            rules: rules.into_iter().collect(),
            endings: endings.into_iter().collect(),
            deepest: 16,
        }
    }

    pub fn ends(&self, state: u8) -> bool {
        self.endings.contains(&state)
    }

    pub fn rules_of(&self, state: u8) -> impl Iterator<Item = &Rule> {
        self.rules.iter().filter(move |r| r[0] == state)
    }

    /// No state has two rules of the same name: a page then has at most one derivation, found without looking ahead.
    pub fn is_deterministic(&self) -> bool {
        self.rules.windows(2).all(|w| w[0][..2] != w[1][..2])
    }

    /// The template file of this schema, with one nonterminal and no template rules.
    pub fn file(&self) -> Vec<u8> {
        File {
            names: self.names,
            nonterminals: 1,
            states: self.states,
            rules: &[],
            schema: &self.rules,
            ending: &self.endings,
        }
        .bytes()
    }
}

/// The schemas that the rules name (section 11): that of K, of the doubling set, and of the chain.
pub fn named() -> Vec<Schema> {
    let k = [[0, 0, 0, 1], [0, 0, 1, 0], [0, 1, 1, 1], [1, 0, 1, 1]];
    let chain: Vec<Rule> = (0..4).map(|i| [0, i, 0, i + 1]).collect();
    vec![
        Schema::new("K", 2, 2, &k, &[1]),
        Schema::new("doubling", 1, 1, &[[0, 0, 0, 0]], &[0]),
        Schema::new("chain", 4, 5, &chain, &[0, 1, 2, 3, 4]),
    ]
}

/// An ambiguous schema, and a valid page of it that libxml2 2.9.14 calls invalid.
pub fn trouble() -> (Schema, Vec<u8>) {
    let rules = [
        [0, 1, 0, 1],
        [0, 1, 1, 1],
        [1, 0, 2, 2],
        [1, 1, 0, 2],
        [2, 1, 0, 2],
    ];
    let mut schema = Schema::new("trouble", 2, 3, &rules, &[0, 1, 2]);
    schema.deepest = 6;
    (schema, vec![1, 1, 0, 32, 1, 33, 33, 33])
}

/// The peers try every way of deriving a start tag at every level of nesting: how many levels keep their product small, at most 6.
fn affordable(schema: &Schema) -> usize {
    let ways = |a| schema.rules.iter().filter(|r| r[1] == a).count();
    let most = (0..schema.names).map(ways).max().unwrap_or(0);
    (2..6)
        .find(|&d| most.pow(d as u32 + 1) > 20_000)
        .unwrap_or(6)
}

/// A random schema of at most so many rules; without two rules of a state and a name where `deterministic`.
pub fn random(
    random: &mut Rng,
    states: u8,
    names: u8,
    rules: usize,
    deterministic: bool,
) -> Schema {
    let mut chosen = BTreeSet::new();
    let mut taken = BTreeSet::new();
    for _ in 0..rules {
        let x = random.below(states as usize) as u8;
        let a = random.below(names as usize) as u8;
        let rest = [
            random.below(states as usize) as u8,
            random.below(states as usize) as u8,
        ];
        if taken.insert((x, a)) || !deterministic {
            chosen.insert([x, a, rest[0], rest[1]]);
        }
    }
    let endings: Vec<u8> = (0..states).filter(|_| random.once_in(2)).collect();
    let label = format!("{states} states, {names} names, {} rules", chosen.len());
    let mut schema = Schema::new(&label, names, states, &Vec::from_iter(chosen), &endings);
    if !schema.is_deterministic() {
        schema.deepest = affordable(&schema);
    }
    schema
}
