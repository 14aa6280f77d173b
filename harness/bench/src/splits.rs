//! Splits: the library against the plain implementation.
use crate::files::{k, open_schema, symbol, Set};
use crate::table::{section, Growth};
use crate::timing::{best, job};
use plain::file::{rule, Long, LongRule};
use plain::LONGEST;
use std::hint::black_box;

/// The set's numbers and schema with these rules, laid out as a file of long rules.
fn long(set: &Set, rules: impl Iterator<Item = LongRule>) -> Vec<u8> {
    let mut rules: Vec<LongRule> = rules.collect();
    rules.sort();
    Long {
        names: set.names,
        nonterminals: set.nonterminals,
        states: set.states,
        rules: &rules,
        schema: &set.schema.iter().copied().collect::<Vec<_>>(),
        ending: &set.endings.iter().copied().collect::<Vec<_>>(),
    }
    .bytes()
}

/// A set's own rules in the long form.
fn widened(set: &Set) -> Vec<u8> {
    let wide = |short: &[u8; 4]| rule(short[0], &short[2..2 + short[1] as usize]);
    long(set, set.rules.iter().map(wide))
}

/// The largest schema, with so many nonterminals and no template rule.
fn frame(nonterminals: u8) -> Set {
    let mut set = open_schema(32, 8, 128);
    set.nonterminals = nonterminals;
    set.endings = (0..8).collect();
    set
}

/// As much to split as fits: 56 rules of 3 symbols and 144 of 2 under 8 nonterminals become 256 rules of 64. In the file a left side's
/// long rules stand behind its short ones; written, they stand before them, since their first symbols are the lower.
fn most_split() -> Vec<u8> {
    let set = frame(8);
    let longer = (0..56).map(|i| rule(i % 8, &[i / 8, 32 + i / 8, i % 32]));
    let shorter = (0..144).map(|i| rule(i % 8, &[symbol(i / 8 % 8), 32 + i / 64]));
    long(&set, longer.chain(shorter))
}

/// The largest file: 256 rules of 2 symbols, which stay, or of 12, which are too many.
fn largest(length: usize) -> Vec<u8> {
    let rules = (0..=255).map(|i| {
        let mut symbols = vec![127; length];
        symbols[0] = i % 4;
        rule(i / 4, &symbols)
    });
    long(&frame(64), rules)
}

/// What both answer, with the same number and the same output, and their times.
fn timed(file: &[u8]) -> (u32, u64, [f64; 2]) {
    let (mut ours, mut theirs) = ([0; LONGEST], [0; LONGEST]);
    let reply = ujthanor::calls::split(file, &mut ours);
    let other = plain::split(file, &mut theirs);
    assert_eq!((reply.answer, reply.number), other);
    assert_eq!(ours, theirs);
    let jobs = vec![
        job(|| ujthanor::calls::split(black_box(file), &mut ours)),
        job(|| plain::split(black_box(file), &mut theirs)),
    ];
    (other.0, other.1, best(jobs).try_into().unwrap())
}

pub fn splits() {
    section(
        "Splits",
        "Files of long rules. The written rules are sorted: those of a new nonterminal are made where the long rule stands, and stand \
         behind all others.",
    );
    let mut table = Growth::new(&["file", "bytes", "answer, number"]);
    for (label, file) in [
        ("K in the long form", widened(&k())),
        (
            "56 of 200 rules have 3 symbols: 64 nonterminals, 256 rules written",
            most_split(),
        ),
        ("the largest file, all rules of 2 symbols", largest(2)),
        ("the largest file, all rules of 12 symbols", largest(12)),
    ] {
        let (answer, number, times) = timed(&file);
        let cells = [
            label.to_string(),
            file.len().to_string(),
            format!("{answer} {number}"),
        ];
        table.row(&cells, times);
    }
}
