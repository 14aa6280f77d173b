//! Sound files of long rules, of all sizes.

use super::draft::{Draft, LongDraft};
use super::{numbers, schemas, sets};
use plain::file::{rule, LongRule, LONG_RULE};
use plain::{NONTERMINALS, RULES};
use seeds::Rng;
use std::collections::BTreeSet;

/// The most symbols of a long rule.
const SYMBOLS: usize = LONG_RULE - 2;

/// A sound file of long rules of any shape.
pub fn any(rng: &mut Rng) -> LongDraft {
    match rng.below(10) {
        0..=3 => grown(&sets::any(rng), rng),
        4 => widened(&sets::any(rng)),
        5 | 6 => wild(rng),
        7 | 8 => at_limits(rng),
        _ => full(rng),
    }
}

/// A small file, whose short strings can be looked at one by one.
pub fn small(rng: &mut Rng) -> LongDraft {
    grown(&sets::small(rng), rng)
}

/// An ordinary draft with its rules in the wider form.
pub fn widened(draft: &Draft) -> LongDraft {
    let wide = |short: &[u8; 4]| rule(short[0], right(short));
    with(draft, draft.rules.iter().map(wide).collect())
}

/// The numbers and the schema of a draft, and other rules.
fn with(draft: &Draft, rules: Vec<LongRule>) -> LongDraft {
    LongDraft {
        names: draft.names,
        nonterminals: draft.nonterminals,
        states: draft.states,
        rules,
        schema: draft.schema.clone(),
        ending: draft.ending.clone(),
    }
}

fn right(rule: &[u8; 4]) -> &[u8] {
    &rule[2..2 + rule[1] as usize]
}

/// An ordinary draft in whose rules some nonterminals are replaced by right sides of their own. What a nonterminal derived before is
/// what it may derive now, so these sets pass or break as ordinary ones do.
pub fn grown(draft: &Draft, rng: &mut Rng) -> LongDraft {
    let steps = rng.pick(&[1, 2, 4, 12]);
    let mut rules = Vec::new();
    for short in &draft.rules {
        let mut symbols = right(short).to_vec();
        for _ in 0..rng.within(0, steps) {
            grow(&mut symbols, draft, rng);
        }
        rules.push(rule(short[0], &symbols));
    }
    with(draft, rules)
}

/// One symbol, if it is a nonterminal, gives way to a right side of it that still fits.
fn grow(symbols: &mut Vec<u8>, draft: &Draft, rng: &mut Rng) {
    if symbols.is_empty() {
        return;
    }
    let at = rng.below(symbols.len());
    let own = |rule: &&[u8; 4]| symbols[at] == 64 + rule[0];
    let choices: Vec<_> = draft.rules.iter().filter(own).collect();
    if choices.is_empty() {
        return;
    }
    let new = right(rng.pick(&choices));
    if symbols.len() - 1 + new.len() <= SYMBOLS {
        symbols.splice(at..=at, new.iter().copied());
    }
}

/// A draft of numbers and a schema alone.
fn frame(rng: &mut Rng) -> Draft {
    let mut draft = numbers::any(rng);
    if rng.once_in(2) {
        schemas::lenient(&mut draft, rng);
    } else {
        schemas::any(&mut draft, rng);
    }
    draft
}

/// A rule at random of so many symbols.
fn any_rule(draft: &Draft, length: usize, rng: &mut Rng) -> LongRule {
    let symbols: Vec<u8> = (0..length).map(|_| numbers::symbol(draft, rng)).collect();
    rule(rng.byte(0, draft.nonterminals - 1), &symbols)
}

/// Rules at random, few or many; some differ from the one before in one symbol only.
fn wild(rng: &mut Rng) -> LongDraft {
    let draft = frame(rng);
    let count = rng.pick(&[1, 3, 8, 30, 256]);
    let most = rng.pick(&[2, 3, 4, 8, SYMBOLS]);
    let mut rules: Vec<LongRule> = Vec::new();
    for _ in 0..rng.within(0, count) {
        let length = rng.within(0, most);
        let next = match rules.last() {
            Some(last) if rng.once_in(4) => twin(last, &draft, rng),
            _ => any_rule(&draft, length, rng),
        };
        rules.push(next);
    }
    with(&draft, rules)
}

/// The same rule with one symbol changed, mostly the last.
fn twin(of: &LongRule, draft: &Draft, rng: &mut Rng) -> LongRule {
    let (mut twin, length) = (*of, of[1] as usize);
    if length > 0 {
        let at = if rng.once_in(3) {
            rng.below(length)
        } else {
            length - 1
        };
        twin[2 + at] = numbers::symbol(draft, rng);
    }
    twin
}

/// What is written has 64 nonterminals or 256 rules, or both, or one more or less of them.
fn at_limits(rng: &mut Rng) -> LongDraft {
    let draft = frame(rng);
    let near = |limit: usize, rng: &mut Rng| limit + rng.pick(&[0, 0, 0, 1, 2]) - 1;
    let old = draft.nonterminals as usize;
    let more = near(NONTERMINALS, rng).saturating_sub(old);
    let mut rules = BTreeSet::new();
    let mut past = 0;
    while past < more {
        let length = 2 + rng.within(1, SYMBOLS - 2).min(more - past);
        past += usize::from(rules.insert(any_rule(&draft, length, rng))) * (length - 2);
    }
    let all = near(RULES, rng).saturating_sub(past);
    // Few names and nonterminals have not so many short rules.
    for _ in 0..20 * RULES {
        if rules.len() >= all {
            break;
        }
        let length = rng.within(0, 2);
        rules.insert(any_rule(&draft, length, rng));
    }
    with(&draft, rules.into_iter().collect())
}

/// All counts of the long file at their limits; mostly every rule is short, else there are too many nonterminals.
fn full(rng: &mut Rng) -> LongDraft {
    let mut draft = frame(rng);
    (draft.names, draft.nonterminals, draft.states) = (32, 64, 8);
    let long = if rng.once_in(4) { SYMBOLS } else { 2 };
    let mut rules = BTreeSet::new();
    while rules.len() < RULES {
        let length = rng.within(0, long);
        rules.insert(any_rule(&draft, length, rng));
    }
    while draft.schema.iter().collect::<BTreeSet<_>>().len() < 128 {
        let [x, y, z] = [0; 3].map(|_: u8| rng.byte(0, 7));
        draft.schema.push([x, rng.byte(0, 31), y, z]);
    }
    draft.ending = (0..8).collect();
    with(&draft, rules.into_iter().collect())
}
