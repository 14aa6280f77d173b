//! Sound template files of many shapes.

use super::draft::{nonterminal, shifted, Draft};
use super::{limits, named, numbers, schemas, typed};
use plain::file::rule;
use seeds::Rng;

/// A sound file of any shape.
pub fn any(rng: &mut Rng) -> Draft {
    match rng.below(17) {
        0 => named(rng),
        1 => wild(rng),
        2..=4 => passing(rng),
        5 | 6 => judged(rng),
        7 => spoilt(rng),
        8 => barren(rng),
        9 => limits::crowd(rng),
        10 => limits::full(rng),
        11 => limits::ring(rng),
        12 => limits::chain(rng),
        13 => limits::deep(rng),
        14 => limits::late(rng),
        15 => limits::nested(rng),
        _ => merged(rng),
    }
}

/// A small file, of which all trees of a few heights can be looked at one by one.
pub fn small(rng: &mut Rng) -> Draft {
    let mut draft = numbers::any(rng);
    draft.names = rng.byte(1, 2);
    draft.nonterminals = rng.byte(1, 5);
    draft.states = rng.byte(1, 3);
    typed::rules(&mut draft, 2, rng);
    if rng.once_in(2) {
        schemas::lenient(&mut draft, rng);
    } else {
        schemas::any(&mut draft, rng);
    }
    match rng.below(8) {
        0 => typed::spoil(&mut draft, rng),
        1 => draft.rules.retain(|rule| rule[0] != 0 || rule[2] >= 64),
        2 => return limits::late(rng),
        3 => return limits::deep(rng),
        4 => return limits::chain(rng),
        _ => {}
    }
    draft
}

/// A file that the rules name, or one of its family.
fn named(rng: &mut Rng) -> Draft {
    let mut all = named::all();
    all.swap_remove(rng.below(all.len())).draft
}

/// Rules at random: most are broken in an early round.
fn wild(rng: &mut Rng) -> Draft {
    let mut draft = numbers::any(rng);
    let count = rng.pick(&[1, 3, 8, 30, 256]);
    for _ in 0..rng.within(0, count) {
        let symbols: Vec<u8> = (0..rng.below(3))
            .map(|_| numbers::symbol(&draft, rng))
            .collect();
        let left = rng.byte(0, draft.nonterminals - 1);
        draft.rules.push(rule(left, &symbols));
    }
    schemas::any(&mut draft, rng);
    draft
}

/// Typed, under a schema that takes all: passes or is crowded, if its pages are one element.
fn passing(rng: &mut Rng) -> Draft {
    let mut draft = numbers::any(rng);
    typed::rules(&mut draft, 4, rng);
    schemas::lenient(&mut draft, rng);
    draft
}

/// Typed, under any schema: often an invalid page in some round.
fn judged(rng: &mut Rng) -> Draft {
    let mut draft = numbers::any(rng);
    typed::rules(&mut draft, 3, rng);
    schemas::any(&mut draft, rng);
    draft
}

/// Typed with one symbol changed: a mismatch or an unbalanced page in some round.
fn spoilt(rng: &mut Rng) -> Draft {
    let mut draft = passing(rng);
    typed::spoil(&mut draft, rng);
    draft
}

/// The start derives nothing: each of its rules needs it again.
fn barren(rng: &mut Rng) -> Draft {
    let mut draft = passing(rng);
    draft.rules.retain(|rule| rule[0] != 0);
    for _ in 0..rng.below(4) {
        let other = numbers::symbol(&draft, rng);
        draft.rules.push(rule(0, &[nonterminal(0), other]));
    }
    draft
}

/// Two drafts side by side under one start and one schema, so that their events meet in one file; mostly inside one element.
fn merged(rng: &mut Rng) -> Draft {
    let one = part(rng);
    let two = part(rng);
    let count = one.nonterminals + two.nonterminals + 1;
    if count > 64 {
        return one;
    }
    let mut draft = numbers::any(rng);
    draft.names = one.names.max(two.names);
    draft.nonterminals = count;
    draft.rules = vec![rule(0, &[nonterminal(1)])];
    let second = 1 + one.nonterminals;
    draft.rules.push(match rng.below(3) {
        0 => rule(0, &[nonterminal(second)]),
        1 => rule(0, &[nonterminal(1), nonterminal(second)]),
        _ => rule(0, &[nonterminal(second), nonterminal(second)]),
    });
    draft
        .rules
        .extend(one.rules.iter().map(|rule| shifted(*rule, 1)));
    draft
        .rules
        .extend(two.rules.iter().map(|rule| shifted(*rule, second)));
    schemas::lenient(&mut draft, rng);
    match rng.once_in(3) {
        true => draft,
        false => draft.inside(0),
    }
}

fn part(rng: &mut Rng) -> Draft {
    match rng.below(6) {
        0 => limits::deep(rng),
        5 => limits::late(rng),
        1 => spoilt(rng),
        2 => limits::chain(rng),
        3 => limits::crowd(rng),
        _ => passing(rng),
    }
}
