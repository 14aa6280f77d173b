//! A template file in the making. Writing it sorts the bodies and drops what is there twice or past
//! the limits, so that every draft within its own numbers is a sound file.

use plain::file::{rule, Wide, LONG_RULE, RULE};
use plain::NONTERMINALS;

/// A draft whose template rules have W bytes.
#[derive(Clone, Debug)]
pub struct WideDraft<const W: usize> {
    pub names: u8,
    pub nonterminals: u8,
    pub states: u8,
    pub rules: Vec<[u8; W]>,
    pub schema: Vec<[u8; 4]>,
    pub ending: Vec<u8>,
}

/// An ordinary draft, and one of a file of long rules.
pub type Draft = WideDraft<RULE>;
pub type LongDraft = WideDraft<LONG_RULE>;

/// The symbol of a nonterminal.
pub fn nonterminal(n: u8) -> u8 {
    64 + n
}

/// The symbols of start and end tag of a name.
pub fn start(name: u8) -> u8 {
    name
}

pub fn end(name: u8) -> u8 {
    32 + name
}

impl<const W: usize> WideDraft<W> {
    /// The sound file.
    pub fn bytes(&self) -> Vec<u8> {
        lay(&WideDraft {
            rules: ascending(&self.rules, 256),
            schema: ascending(&self.schema, 128),
            ending: ascending(&self.ending, self.states as usize),
            ..*self
        })
    }
}

impl Draft {
    /// The draft whose pages are these with one element around each, where there is room for two nonterminals more. Under a schema
    /// whose state 0 takes every element, what was balanced is then a valid page.
    pub fn inside(mut self, name: u8) -> Draft {
        if self.nonterminals as usize + 2 > NONTERMINALS {
            return self;
        }
        self.nonterminals += 2;
        self.rules = self.rules.iter().map(|rule| shifted(*rule, 2)).collect();
        self.rules.extend([
            rule(0, &[start(name), nonterminal(1)]),
            rule(1, &[nonterminal(2), end(name)]),
        ]);
        self
    }
}

/// A rule with each of its nonterminals numbered so much higher.
pub fn shifted(rule: [u8; RULE], by: u8) -> [u8; RULE] {
    let symbol = |s: u8| if (64..128).contains(&s) { s + by } else { s };
    [rule[0] + by, rule[1], symbol(rule[2]), symbol(rule[3])]
}

/// The file of a draft as it stands, sound or not.
pub fn lay<const W: usize>(draft: &WideDraft<W>) -> Vec<u8> {
    Wide {
        names: draft.names,
        nonterminals: draft.nonterminals,
        states: draft.states,
        rules: &draft.rules,
        schema: &draft.schema,
        ending: &draft.ending,
    }
    .bytes()
}

fn ascending<T: Ord + Clone>(entries: &[T], most: usize) -> Vec<T> {
    let mut entries = entries.to_vec();
    entries.sort();
    entries.dedup();
    entries.truncate(most);
    entries
}
