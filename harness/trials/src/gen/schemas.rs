//! Schemas of many kinds, put into a draft by its own numbers.

use super::draft::Draft;
use seeds::Rng;

/// Gives a draft a schema of any kind.
pub fn any(draft: &mut Draft, rng: &mut Rng) {
    match rng.below(6) {
        0 => loose(draft, rng),
        1 => open(draft, rng),
        2 | 3 => complete(draft, rng),
        4 => shifting(draft, rng),
        _ => exact(draft, rng),
    }
}

/// Gives a draft a schema that takes every balanced page.
pub fn lenient(draft: &mut Draft, rng: &mut Rng) {
    if rng.once_in(2) {
        open(draft, rng);
    } else {
        complete(draft, rng);
        draft.ending = (0..draft.states).collect();
        fill(draft);
    }
}

/// Rules and ending states at random.
fn loose(draft: &mut Draft, rng: &mut Rng) {
    let most = rng.pick(&[0, 4, 20, 128]);
    draft.schema = (0..rng.within(0, most))
        .map(|_| random_rule(draft, rng))
        .collect();
    draft.ending = some_states(draft, rng);
}

fn random_rule(draft: &Draft, rng: &mut Rng) -> [u8; 4] {
    let state = draft.states - 1;
    let a = rng.byte(0, draft.names - 1);
    [
        rng.byte(0, state),
        a,
        rng.byte(0, state),
        rng.byte(0, state),
    ]
}

fn some_states(draft: &Draft, rng: &mut Rng) -> Vec<u8> {
    (0..draft.states).filter(|_| !rng.once_in(3)).collect()
}

/// State 0 takes every page; the others have rules at random.
fn open(draft: &mut Draft, rng: &mut Rng) {
    let extra = rng.within(0, 40);
    draft.schema = (0..extra).map(|_| random_rule(draft, rng)).collect();
    draft.schema.extend((0..draft.names).map(|a| [0, a, 0, 0]));
    draft.ending = some_states(draft, rng);
    draft.ending.push(0);
}

/// For each state and name one rule at random, as far as 128 rules go.
fn complete(draft: &mut Draft, rng: &mut Rng) {
    draft.schema.clear();
    for x in 0..draft.states {
        for a in 0..draft.names {
            let [_, _, y, z] = random_rule(draft, rng);
            draft.schema.push([x, a, y, z]);
        }
    }
    draft.ending = some_states(draft, rng);
}

/// Where the rules of a complete schema do not fit, state 0 takes everything instead.
fn fill(draft: &mut Draft) {
    if draft.schema.len() > 128 {
        draft.schema = (0..draft.names).map(|a| [0, a, 0, 0]).collect();
    }
}

/// Each name moves the state on by one or more; the content is counted anew from state 0.
fn shifting(draft: &mut Draft, rng: &mut Rng) {
    draft.schema.clear();
    for a in 0..draft.names {
        let by = rng.byte(0, draft.states - 1);
        for x in 0..draft.states {
            draft.schema.push([x, a, 0, (x + by) % draft.states]);
        }
    }
    draft.ending = some_states(draft, rng);
}

/// As file K: exactly one of some name among any others.
fn exact(draft: &mut Draft, rng: &mut Rng) {
    let one = rng.byte(0, draft.names - 1);
    let done = draft.states - 1;
    draft.schema.clear();
    for a in 0..draft.names {
        draft.schema.push([done, a, done, done]);
        if a == one {
            draft.schema.push([0, a, done, done]);
        } else {
            draft.schema.push([0, a, 0, done]);
            draft.schema.push([0, a, done, 0]);
        }
    }
    draft.ending = vec![done];
}
