//! Sound files that reach the limits: depth, images, rounds, counts.

use super::draft::{end, nonterminal, start, Draft};
use super::{named, numbers, schemas, typed};
use plain::file::rule;
use plain::{NONTERMINALS, RULES};
use seeds::Rng;

/// Elements in elements without end, under few nonterminals: a page is one of them, and nests past 16.
pub fn nested(rng: &mut Rng) -> Draft {
    let mut draft = numbers::any(rng);
    let kinds = draft.names.min(rng.byte(1, 3));
    draft.nonterminals = 1 + 2 * kinds;
    for a in 0..kinds {
        let (open, inside) = (1 + 2 * a, 2 + 2 * a);
        draft.rules.push(rule(0, &[nonterminal(open), end(a)]));
        draft
            .rules
            .push(rule(open, &[start(a), nonterminal(inside)]));
        draft.rules.push(rule(inside, &[]));
        draft.rules.push(rule(inside, &[nonterminal(0)]));
        draft.rules.push(rule(
            inside,
            &[nonterminal(rng.pick(&[0, 2])), nonterminal(0)],
        ));
    }
    schemas::lenient(&mut draft, rng);
    draft
}

/// Few nonterminals that repeat many elements of different relations: many images in few rounds. Mostly all of it stands inside one
/// element, else a page of two is met before the crowd.
pub fn crowd(rng: &mut Rng) -> Draft {
    let mut draft = numbers::any(rng);
    draft.names = rng.byte(2, 8);
    draft.states = rng.byte(3, 8);
    draft.nonterminals = rng.byte(2, 4);
    let last = draft.nonterminals - 1;
    for n in 0..last {
        draft.rules.push(rule(n, &[nonterminal(n + 1)]));
        draft
            .rules
            .push(rule(n, &[nonterminal(n), nonterminal(rng.byte(0, last))]));
    }
    let choices = rng.byte(1, draft.names);
    draft
        .rules
        .extend((0..choices).map(|a| rule(last, &[start(a), end(a)])));
    schemas::lenient(&mut draft, rng);
    match rng.once_in(8) {
        true => draft,
        false => draft.inside(0),
    }
}

/// All counts at their limits: 256 rules, 128 schema rules, all states ending. Two nonterminals and rules mostly put an element around.
pub fn full(rng: &mut Rng) -> Draft {
    let mut draft = numbers::any(rng);
    let bare = rng.once_in(4);
    let around = if bare { 0 } else { 2 };
    (draft.names, draft.nonterminals, draft.states) = (32, NONTERMINALS as u8 - around, 8);
    if rng.once_in(2) {
        typed::rules(&mut draft, 6, rng);
    }
    fill_rules(&mut draft, RULES - around as usize, rng);
    let mut draft = draft.inside(0);
    schemas::lenient(&mut draft, rng);
    while distinct(&draft.schema) < 128 {
        let state = |rng: &mut Rng| rng.byte(0, 7);
        draft
            .schema
            .push([state(rng), rng.byte(0, 31), state(rng), state(rng)]);
    }
    draft.ending = (0..8).collect();
    draft
}

/// Chains, elements and empty strings until there are so many different rules.
fn fill_rules(draft: &mut Draft, count: usize, rng: &mut Rng) {
    let last = draft.nonterminals - 1;
    while distinct(&draft.rules) < count {
        let left = rng.byte(0, last);
        let right = nonterminal(rng.byte(0, last));
        let rule = match rng.below(4) {
            0 => rule(left, &[]),
            1 => rule(left, &[right]),
            2 => rule(left, &[right, nonterminal(rng.byte(0, last))]),
            _ => rule(left, &[start(left % 32), end(left % 32)]),
        };
        draft.rules.push(rule);
    }
}

fn distinct(entries: &[[u8; 4]]) -> usize {
    entries
        .iter()
        .collect::<std::collections::HashSet<_>>()
        .len()
}

/// One new image a round, for up to 257 rounds.
pub fn ring(rng: &mut Rng) -> Draft {
    let length = rng.pick(&[3, 8, 13, 16, 32, 60, 63, 64]);
    let open = rng.byte(0, length - 3);
    let shut = rng.byte(open + 1, length - 2);
    let (open, shut) = if rng.once_in(2) {
        (open, shut)
    } else {
        (shut, open)
    };
    named::ring(length, rng.byte(1, 7), open, shut)
}

pub fn chain(rng: &mut Rng) -> Draft {
    named::chain(rng.byte(1, 64), rng.byte(1, 7), rng.once_in(2))
}

/// Near 16 tags: under the start and under others.
pub fn deep(rng: &mut Rng) -> Draft {
    match rng.below(4) {
        0 => named::doubling(rng.byte(1, 7)),
        1 => named::ladder(rng.byte(1, 20)),
        2 => named::deep_start(rng.byte(1, 17), rng.byte(1, 17)),
        _ => towers(rng),
    }
}

/// Ladders of unmatched tags with a choice at each step; loops make them grow without end.
fn towers(rng: &mut Rng) -> Draft {
    let mut draft = named::ladder(rng.byte(4, 16));
    let last = draft.nonterminals - 1;
    for _ in 0..rng.within(1, 3) {
        let n = rng.byte(1, last);
        let other = nonterminal(rng.byte(1, last));
        let tag = rng.pick(&[0, 32]);
        draft.rules.push(match rng.below(3) {
            0 => rule(n, &[other, nonterminal(n)]),
            1 => rule(n, &[tag, other]),
            _ => rule(n, &[other]),
        });
    }
    draft
}

/// A ladder of two names in which one pair does not fit: a mismatch in a late round, which often
/// finds no image anew.
pub fn late(rng: &mut Rng) -> Draft {
    let steps = rng.byte(2, 16);
    let mut draft = named::ladder(steps);
    draft.names = 2;
    draft.schema.push([0, 1, 0, 0]);
    let off = rng.byte(1, steps);
    for rule in &mut draft.rules {
        if rule[0] == off {
            rule[2] = 1;
        }
    }
    if rng.once_in(2) {
        let n = rng.byte(1, draft.nonterminals - 1);
        draft.rules.push(rule(n, &[nonterminal(n)]));
    }
    draft
}
