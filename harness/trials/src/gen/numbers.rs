//! A draft's numbers, and symbols within them: what the modules that make sets begin with.

use super::draft::{nonterminal, Draft};
use seeds::Rng;

/// A draft of numbers at random, mostly small, and no rules.
pub fn any(rng: &mut Rng) -> Draft {
    let (names, nonterminals) = match rng.below(8) {
        0 => (rng.byte(1, 32), rng.byte(1, 64)),
        1 => (32, 64),
        _ => (rng.byte(1, 4), rng.byte(1, 9)),
    };
    Draft {
        names,
        nonterminals,
        states: rng.byte(1, 8),
        rules: Vec::new(),
        schema: Vec::new(),
        ending: Vec::new(),
    }
}

/// Any symbol within a draft's numbers.
pub fn symbol(draft: &Draft, rng: &mut Rng) -> u8 {
    match rng.below(3) {
        0 => rng.byte(0, draft.names - 1),
        1 => 32 + rng.byte(0, draft.names - 1),
        _ => nonterminal(rng.byte(0, draft.nonterminals - 1)),
    }
}
