//! Circles of nonterminals: sets that find one new image in each round but the last, alone and among many other rules.
use crate::files::{symbol, Entry, Set};
use std::collections::BTreeSet;

/// The limit of template rules (Rules, section 4).
const RULES: usize = 256;

/// So many nonterminals in a circle that nests one element more each time round; the last gives what is open.
fn round(n: u8) -> BTreeSet<Entry> {
    let mut rules: BTreeSet<Entry> = (0..n - 2).map(|i| [i, 1, symbol(i + 1), 255]).collect();
    rules.extend([
        [n - 2, 2, symbol(n - 1), 32],
        [n - 1, 2, 0, symbol(0)],
        [n - 2, 2, 0, 32],
    ]);
    rules
}

/// A circle of so many nonterminals: one new image in each round, four times round.
pub fn circle(n: u8) -> Set {
    Set {
        names: 1,
        nonterminals: n,
        states: 6,
        rules: round(n),
        schema: BTreeSet::from([[0, 0, 0, 1], [2, 0, 3, 1], [3, 0, 4, 1], [4, 0, 5, 1]]),
        endings: BTreeSet::from([0, 1, 5]),
    }
}

/// A circle of 8 among 64 nonterminals: one new image in each round, 32 times round. State 0 makes every page valid. States 1 to 7
/// stand in a ring, each with the next inside its element, and 7 also with 2; of them only 3 is ending. An element has a pair of state x
/// where as many steps as it nests lead from x to 3. The sets of such x differ up to 32 steps; from then on all seven are in it.
pub fn small_circle() -> Set {
    let mut schema: BTreeSet<Entry> = (1..8).map(|x| [x, 0, x % 7 + 1, 0]).collect();
    schema.extend([[0, 0, 0, 0], [7, 0, 2, 0]]);
    Set {
        names: 1,
        nonterminals: 64,
        states: 8,
        rules: round(8),
        schema,
        endings: BTreeSet::from([0, 3]),
    }
}

/// The set with more rules, up to the limit.
fn filled(set: &Set, more: impl Iterator<Item = Entry>) -> Set {
    let mut set = set.clone();
    set.rules.extend(more.take(RULES - set.rules.len()));
    assert_eq!(set.rules.len(), RULES);
    set
}

/// The small circle and useless rules, by their left sides: in turn one of 8 to 35, which derive strings but are not reached, and one
/// of 36 to 63, which derive nothing.
pub fn with_unreached(small: &Set) -> Set {
    let useless = (0..=255).flat_map(|i| {
        let (unreached, barren) = (8 + i % 28, 36 + i % 28);
        [
            [unreached, 2, symbol(i % 8), symbol(i / 8)],
            [barren, 2, symbol(barren), symbol(i / 28)],
        ]
    });
    filled(small, useless)
}

/// The small circle and useless rules of its own left sides, each with a nonterminal on the right side that has no rule.
pub fn with_barren(small: &Set) -> Set {
    let useless = (0..=255).map(|i| [i % 8, 2, symbol(i % 8), symbol(8 + i / 8)]);
    filled(small, useless)
}

/// A circle of 64 in which the start is one element and 1 to 62 are two in a row: 62 gives the start twice, each of the others the next
/// higher, 63 a start tag before 1, and the start what is open. Every element ends in state 0, from which every element leads to 0: an
/// element before others has the relation of the first alone.
pub fn large_circle() -> Set {
    let mut set = circle(64);
    set.schema = set
        .schema
        .iter()
        .map(|&[x, a, y, _]| [x, a, y, 0])
        .collect();
    set.rules = (1..62).map(|i| [i, 1, symbol(i + 1), 255]).collect();
    set.rules.extend([
        [0, 2, 0, 32],
        [0, 2, symbol(63), 32],
        [62, 2, symbol(0), symbol(0)],
        [63, 2, 0, symbol(1)],
    ]);
    set
}

/// The large circle and useful rules that lead back: i + 1 gives i and another, and so only what i + 1 had before i.
pub fn with_back(large: &Set) -> Set {
    let back = (0..=255).map(|n| (1 + n % 61, n / 61));
    filled(
        large,
        back.map(|(i, other)| [i + 1, 2, symbol(i), symbol(other)]),
    )
}
