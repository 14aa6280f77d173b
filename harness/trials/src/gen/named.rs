//! The files that the rules name (section 11), and families around them that reach the limits.

use super::draft::{end, nonterminal, start, Draft};
use plain::file::rule;

/// File K.
pub fn k() -> Draft {
    Draft {
        names: 2,
        nonterminals: 3,
        states: 2,
        rules: vec![
            rule(0, &[nonterminal(1), end(0)]),
            rule(1, &[start(0), nonterminal(2)]),
            rule(2, &[start(1), end(1)]),
        ],
        schema: vec![[0, 0, 0, 1], [0, 0, 1, 0], [0, 1, 1, 1], [1, 0, 1, 1]],
        ending: vec![1],
    }
}

/// K with nothing as a second choice of its last nonterminal.
pub fn k_with_nothing() -> Draft {
    let mut draft = k();
    draft.rules.push(rule(2, &[]));
    draft
}

/// K with an end tag that does not fit.
pub fn k_mismatched() -> Draft {
    let mut draft = k();
    draft.rules[2] = rule(2, &[start(1), end(0)]);
    draft
}

/// K with a start that derives nothing.
pub fn k_barren() -> Draft {
    let mut draft = k();
    draft.rules = vec![rule(0, &[nonterminal(0), end(0)])];
    draft
}

/// One name, and a schema that takes every balanced page of it.
fn free(nonterminals: u8, rules: Vec<[u8; 4]>) -> Draft {
    Draft {
        names: 1,
        nonterminals,
        states: 1,
        rules,
        schema: vec![[0, 0, 0, 0]],
        ending: vec![0],
    }
}

/// `steps` nonterminals double the start tag, as many the end tag, and the start is both in a row.
pub fn doubling(steps: u8) -> Draft {
    let mut rules = vec![rule(0, &[nonterminal(1), nonterminal(1 + steps)])];
    for (first, tag) in [(1, start(0)), (1 + steps, end(0))] {
        for n in first..first + steps - 1 {
            rules.push(rule(n, &[nonterminal(n + 1), nonterminal(n + 1)]));
        }
        rules.push(rule(first + steps - 1, &[tag]));
    }
    free(1 + 2 * steps, rules)
}

/// `steps` nonterminals each adding one start, as many adding one end, the start their pair.
pub fn ladder(steps: u8) -> Draft {
    let mut rules = vec![rule(0, &[nonterminal(1), nonterminal(1 + steps)])];
    for n in 1..steps {
        rules.push(rule(n, &[start(0), nonterminal(n + 1)]));
        rules.push(rule(steps + n, &[nonterminal(steps + n + 1), end(0)]));
    }
    rules.push(rule(steps, &[start(0)]));
    rules.push(rule(2 * steps, &[end(0)]));
    free(1 + 2 * steps, rules)
}

/// The start is two parts of a ladder of starts: with 17 in all it is itself too deep.
pub fn deep_start(one: u8, two: u8) -> Draft {
    let steps = one.max(two);
    let mut rules = vec![rule(
        0,
        &[nonterminal(steps + 1 - one), nonterminal(steps + 1 - two)],
    )];
    rules.extend((1..steps).map(|n| rule(n, &[start(0), nonterminal(n + 1)])));
    rules.push(rule(steps, &[start(0)]));
    free(1 + steps, rules)
}

/// A chain of nonterminals; the last gives one of `choices` empty elements, each with a relation of
/// its own, or also nothing.
pub fn chain(length: u8, choices: u8, nothing: bool) -> Draft {
    let last = length - 1;
    let mut rules: Vec<_> = (0..last).map(|n| rule(n, &[nonterminal(n + 1)])).collect();
    rules.extend((0..choices).map(|a| rule(last, &[start(a), end(a)])));
    if nothing {
        rules.push(rule(last, &[]));
    }
    Draft {
        names: choices,
        nonterminals: length,
        states: choices + 1,
        rules,
        schema: (0..choices).map(|i| [0, i, 0, i + 1]).collect(),
        ending: (0..=choices).collect(),
    }
}

/// Pages of two elements side by side.
pub fn pair() -> Draft {
    let one = nonterminal(1);
    free(2, vec![rule(0, &[one, one]), rule(1, &[start(0), end(0)])])
}

/// A chain of nonterminals; the last gives nothing, one element or two, which differ in their counts alone.
pub fn row(length: u8) -> Draft {
    let (last, one) = (length - 1, nonterminal(length));
    let mut rules: Vec<_> = (0..last).map(|n| rule(n, &[nonterminal(n + 1)])).collect();
    rules.extend([
        rule(last, &[]),
        rule(last, &[one]),
        rule(last, &[one, one]),
        rule(length, &[start(0), end(0)]),
    ]);
    free(length + 1, rules)
}

/// A ring of nonterminals that gives one new image a round: each time around wraps one element more
/// (its start at `open`, its end at `shut`), and the relation comes back after `period` times. It
/// passes in round length·period + 1, or is crowded in round 257.
pub fn ring(length: u8, period: u8, open: u8, shut: u8) -> Draft {
    let next = |n: u8| nonterminal((n + 1) % length);
    let mut rules: Vec<_> = (0..length)
        .map(|n| match n {
            _ if n == open => rule(n, &[start(0), next(n)]),
            _ if n == shut => rule(n, &[next(n), end(0)]),
            _ => rule(n, &[next(n)]),
        })
        .collect();
    rules.push(rule(length - 1, &[start(0), end(0)]));
    // Of the states 1 to `period` an element has the one after its content's.
    let before = |x: u8| if x == 1 { period } else { x - 1 };
    let counting = (1..=period).map(|x| [x, 0, before(x), 0]);
    Draft {
        names: 1,
        nonterminals: length,
        states: period + 1,
        rules,
        schema: [[0, 0, 0, 0]].into_iter().chain(counting).collect(),
        ending: vec![0, 1],
    }
}

/// Passes in round 257 with 256 images.
pub fn longest_pass() -> Draft {
    ring(64, 4, 20, 40)
}

/// Crowded in round 257.
pub fn latest_crowd() -> Draft {
    ring(64, 5, 20, 40)
}

/// A named file with the line that the check with a budget gives.
pub struct Named {
    pub name: &'static str,
    pub draft: Draft,
    pub budget: usize,
    pub line: (u32, u64, u64),
}

/// The files of the rules and the limits of rounds and images, with their lines.
pub fn all() -> Vec<Named> {
    let of = |name, draft, budget, line| Named {
        name,
        draft,
        budget,
        line,
    };
    vec![
        of("K", k(), 64, (0, 4, 3)),
        of("K with nothing", k_with_nothing(), 64, (2, 3, 0)),
        of("K mismatched", k_mismatched(), 64, (1, 1, 0)),
        of("K barren", k_barren(), 64, (6, 0, 0)),
        of("doubling to 16", doubling(5), 64, (0, 7, 11)),
        of("doubling to 32", doubling(6), 64, (3, 6, 0)),
        of("chain, 65 rounds", chain(64, 4, false), 65, (0, 65, 256)),
        of("chain, 64 rounds", chain(64, 4, false), 64, (5, 64, 0)),
        of("chain with nothing", chain(64, 4, true), 64, (4, 52, 0)),
        of("pair", pair(), 64, (2, 2, 0)),
        of("row", row(61), 257, (2, 61, 0)),
        of("row in an element", row(61).inside(0), 257, (0, 64, 188)),
        of("ladder of 16", ladder(16), 257, (0, 18, 33)),
        of("ladder of 17", ladder(17), 257, (3, 17, 0)),
        of("deep start", deep_start(9, 8), 257, (2, 10, 0)),
        of("longest pass", longest_pass(), 257, (0, 257, 256)),
        of("longest pass cut", longest_pass(), 256, (5, 256, 0)),
        of("latest crowd", latest_crowd(), 257, (4, 257, 0)),
    ]
}
