//! Rules longer than two symbols (section 13 of the rules): its example, the orders that are easily mistaken, both sides of each limit,
//! and the strings of both grammars.

use plain::file::{read, read_long, rule, Long, LongRule};
use plain::oracle::short::short;
use plain::oracle::trees::Cap;
use plain::{check, split, LONGEST, LONGEST_LONG, TABLE};

const K: [u8; 45] = [
    2, 3, 2, 0, 16, 0, 3, 0, 28, 0, 4, 0, 44, 0, 1, 0, 0, 2, 65, 32, 1, 2, 0, 66, 2, 2, 1, 33, 0,
    0, 0, 1, 0, 0, 1, 0, 0, 1, 1, 1, 1, 0, 1, 1, 1,
];

/// Two names, one state, no schema rule, and the rules as they stand.
fn bare(nonterminals: u8, rules: &[LongRule]) -> Vec<u8> {
    Long {
        names: 2,
        nonterminals,
        states: 1,
        rules,
        schema: &[],
        ending: &[],
    }
    .bytes()
}

/// What is written, with the output's last bytes looked at.
fn written(file: &[u8]) -> Vec<u8> {
    let mut out = vec![9; LONGEST + 7];
    let (answer, number) = split(file, &mut out);
    assert_eq!(answer, 0);
    let behind = out.split_off(number as usize);
    assert!(behind.iter().all(|&byte| byte == 9));
    out
}

/// Number of nonterminals, and the rules, of what is written.
fn rules(file: &[u8]) -> (u8, Vec<[u8; 4]>) {
    let out = written(file);
    let file = read(&out).expect("the written file is sound");
    (file.nonterminals, file.rules.to_vec())
}

/// A refusal, which leaves every byte of the output.
fn refused(file: &[u8], room: usize) -> (u32, u64) {
    let mut out = vec![9; room];
    let reply = split(file, &mut out);
    assert_ne!(reply.0, 0);
    assert!(out.iter().all(|&byte| byte == 9));
    reply
}

/// The example of the rules, byte by byte.
fn example() -> Vec<u8> {
    let mut file = vec![2, 1, 1, 0, 16, 0, 2, 0, 44, 0, 0, 0, 44, 0, 0, 0];
    file.extend([0, 3, 0, 32, 1, 255, 255, 255, 255, 255, 255, 255, 255, 255]);
    file.extend([0, 4, 1, 33, 0, 32, 255, 255, 255, 255, 255, 255, 255, 255]);
    file
}

#[test]
fn the_example() {
    let mut told = vec![2, 4, 1, 0, 16, 0, 5, 0, 36, 0, 0, 0, 36, 0, 0, 0];
    told.extend([
        0, 2, 0, 65, 0, 2, 1, 66, 1, 2, 32, 1, 2, 2, 33, 67, 3, 2, 0, 32,
    ]);
    assert_eq!(written(&example()), told);
    let rules = [rule(0, &[0, 32, 1]), rule(0, &[1, 33, 0, 32])];
    assert_eq!(bare(1, &rules), example());
}

#[test]
fn numbers_go_by_length_and_places_by_symbols() {
    let file = bare(1, &[rule(0, &[1, 33, 0]), rule(0, &[0, 32, 0, 32])]);
    let told = [
        [0, 2, 0, 66],
        [0, 2, 1, 65],
        [1, 2, 33, 0],
        [2, 2, 32, 67],
        [3, 2, 0, 32],
    ];
    assert_eq!(rules(&file), (4, told.to_vec()));
}

#[test]
fn a_long_rule_before_a_short_one() {
    let file = bare(
        2,
        &[
            rule(0, &[]),
            rule(0, &[1]),
            rule(0, &[1, 33]),
            rule(0, &[0, 32, 65]),
            rule(0, &[65, 0, 32]),
            rule(1, &[0, 32]),
        ],
    );
    let told = [
        [0, 0, 255, 255],
        [0, 1, 1, 255],
        [0, 2, 0, 66],
        [0, 2, 1, 33],
        [0, 2, 65, 67],
        [1, 2, 0, 32],
        [2, 2, 32, 65],
        [3, 2, 0, 32],
    ];
    assert_eq!(rules(&file), (4, told.to_vec()));
}

#[test]
fn equal_rests_are_not_shared() {
    let file = bare(2, &[rule(0, &[0, 32, 1]), rule(1, &[0, 32, 1])]);
    let told = [[0, 2, 0, 66], [1, 2, 0, 67], [2, 2, 32, 1], [3, 2, 32, 1]];
    assert_eq!(rules(&file), (4, told.to_vec()));
}

#[test]
fn each_length() {
    for length in 0..=12u8 {
        let symbols: Vec<u8> = (0..length)
            .map(|i| [0, 1, 32, 33, 64][i as usize % 5])
            .collect();
        let (nonterminals, rules) = rules(&bare(1, &[rule(0, &symbols)]));
        let more = length.saturating_sub(2);
        assert_eq!((nonterminals, rules.len()), (1 + more, 1 + more as usize));
        for (i, rule) in rules.iter().enumerate().skip(1) {
            assert_eq!((rule[0], rule[1], rule[2]), (i as u8, 2, symbols[i]));
        }
    }
    let mut past = bare(1, &[rule(0, &[0; 12])]);
    past[17] = 13;
    assert_eq!(refused(&past, LONGEST), (7, 17));
}

/// K with its rules in 14 bytes.
fn long_k() -> Vec<u8> {
    let k = read(&K).expect("K is sound");
    let wide = |short: &[u8; 4]| rule(short[0], &short[2..2 + short[1] as usize]);
    let rules: Vec<LongRule> = k.rules.iter().map(wide).collect();
    Long {
        names: k.names,
        nonterminals: k.nonterminals,
        states: k.states,
        rules: &rules,
        schema: k.schema,
        ending: k.ending,
    }
    .bytes()
}

#[test]
fn k_in_long_form_is_k() {
    let long = long_k();
    assert_eq!(long.len(), 45 + 3 * 10);
    assert_eq!(written(&long), K);
    // An ordinary file with rules is read as a long one whose second body stands at the wrong place.
    assert_eq!(refused(&K, LONGEST), (7, 8));
    // Without rules it is both.
    let none = [1, 1, 1, 0, 16, 0, 0, 0, 16, 0, 0, 0, 16, 0, 0, 0];
    assert_eq!(written(&none), none);
}

#[test]
fn the_page_of_k_as_one_rule() {
    let k = read(&K).expect("K is sound");
    let long = Long {
        names: 2,
        nonterminals: 1,
        states: 2,
        rules: &[rule(0, &[0, 1, 33, 32])],
        schema: k.schema,
        ending: k.ending,
    };
    let file = written(&long.bytes());
    assert_eq!(check(&file, &mut vec![7; TABLE], 64), (0, 4, 3));
}

/// A file whose rules have together so many symbols past their second, at most ten a rule.
fn longer_by(nonterminals: u8, mut past: usize) -> Vec<u8> {
    let mut rules = Vec::new();
    for left in 0..nonterminals {
        let more = past.min(10);
        past -= more;
        rules.push(rule(left, &vec![left % 2; 2 + more]));
    }
    assert_eq!(past, 0);
    bare(nonterminals, &rules)
}

#[test]
fn nonterminals_at_their_limit() {
    for nonterminals in [6, 20, 54, 63] {
        let free = 64 - nonterminals as usize;
        assert_eq!(rules(&longer_by(nonterminals, free)).0, 64);
        let past = longer_by(nonterminals, free + 1);
        assert_eq!(refused(&past, LONGEST), (16, 0));
    }
    // All 64 are there before: no rule may be long.
    assert_eq!(rules(&longer_by(64, 0)).0, 64);
    assert_eq!(refused(&longer_by(64, 1), LONGEST), (16, 0));
}

/// So many rules of two symbols under four nonterminals, and one of twelve.
fn rules_and_a_long_one(count: usize) -> Vec<u8> {
    let symbols = [0, 1, 32, 33, 64, 65, 66, 67];
    let pairs = (0..4).flat_map(|n| symbols.map(|s| (n, s)));
    let mut all: Vec<LongRule> = pairs
        .flat_map(|(n, s)| symbols.map(|t| rule(n, &[s, t])))
        .take(count)
        .collect();
    all.push(rule(3, &[1; 12]));
    bare(4, &all)
}

#[test]
fn rules_at_their_limit() {
    // The long rule becomes eleven.
    assert_eq!(rules(&rules_and_a_long_one(245)).1.len(), 256);
    assert_eq!(refused(&rules_and_a_long_one(246), LONGEST), (16, 0));
    // 257 rules in the lent file itself are a fault of the file.
    assert_eq!(refused(&rules_and_a_long_one(256), LONGEST), (7, 6));
}

#[test]
fn useless_rules_count() {
    // Nonterminal 1 derives nothing and is not reached.
    let file = bare(55, &[rule(0, &[0, 32]), rule(1, &[65; 12])]);
    assert_eq!(refused(&file, LONGEST), (16, 0));
}

#[test]
fn room() {
    for file in [example(), long_k(), rules_and_a_long_one(245)] {
        let told = written(&file);
        let mut out = vec![9; told.len()];
        assert_eq!(split(&file, &mut out), (0, told.len() as u64));
        assert_eq!(out, told);
        for short in [told.len() - 1, 16, 1, 0] {
            assert_eq!(refused(&file, short), (17, 0));
        }
    }
}

#[test]
fn order_of_refusals() {
    let many = longer_by(64, 1);
    assert_eq!(refused(&many, 0), (16, 0));
    let mut bad = many.clone();
    bad[16] = 64;
    assert_eq!(refused(&bad, 0), (7, 16));
    assert_eq!(refused(&[], 0), (7, 0));
    assert_eq!(refused(&example(), 35), (17, 0));
}

/// The example with one byte changed.
fn changed(at: usize, value: u8) -> Vec<u8> {
    let mut file = example();
    file[at] = value;
    file
}

#[test]
fn faults_of_long_files() {
    for (at, value) in [(4, 17), (8, 24), (10, 129), (12, 45), (14, 2)] {
        assert_eq!(refused(&changed(at, value), LONGEST), (7, at as u64));
    }
    // A used symbol that is none; an unused one that is not 255, also the last.
    for (at, value) in [(18, 2), (20, 255), (21, 0), (29, 254), (31, 13), (34, 65)] {
        assert_eq!(refused(&changed(at, value), LONGEST), (7, at as u64));
    }
    let more = [&example()[..], &[0]].concat();
    assert_eq!(refused(&more, LONGEST), (7, 0));
    // Ascent is over all of a rule: the length counts before the symbols, and the last symbol counts.
    let twice = bare(1, &[rule(0, &[0; 12]), rule(0, &[0; 12])]);
    assert_eq!(refused(&twice, LONGEST), (7, 30));
    let mut last = [0; 12];
    last[11] = 1;
    let ascending = bare(1, &[rule(0, &[0; 12]), rule(0, &last)]);
    assert_eq!(written(&ascending).len(), 16 + 4 * 22);
    let falling = bare(1, &[rule(0, &last), rule(0, &[0; 12])]);
    assert_eq!(refused(&falling, LONGEST), (7, 30));
    let by_symbols = bare(1, &[rule(0, &[0, 0, 0, 0]), rule(0, &[1, 1, 1])]);
    assert_eq!(refused(&by_symbols, LONGEST), (7, 30));
}

#[test]
fn the_longest_files() {
    let rules: Vec<LongRule> = (0..=255).map(|i| rule(i / 4, &[i % 4, 127])).collect();
    let schema: Vec<[u8; 4]> = (0..128).map(|i| [i / 16, i % 16, 0, 0]).collect();
    let ending: Vec<u8> = (0..8).collect();
    let mut long = Long {
        names: 32,
        nonterminals: 64,
        states: 8,
        rules: &rules,
        schema: &schema,
        ending: &ending,
    };
    let file = long.bytes();
    assert_eq!(file.len(), LONGEST_LONG);
    assert_eq!(written(&file).len(), LONGEST);
    // With twelve symbols each there would be 2,624 nonterminals and 2,816 rules.
    let rules: Vec<LongRule> = (0..=255).map(|i| rule(i / 4, &[i % 4; 12])).collect();
    long.rules = &rules;
    assert_eq!(refused(&long.bytes(), LONGEST), (16, 0));
}

const CAP: Cap = Cap {
    strings: 2_000,
    tags: 13,
};

#[test]
fn old_nonterminals_keep_their_strings() {
    let files = [
        example(),
        long_k(),
        bare(1, &[rule(0, &[0, 1, 33, 32, 0, 1, 33, 32, 0, 1, 33, 32])]),
        // Elements in elements and in a row, under two names in turn.
        bare(
            2,
            &[
                rule(0, &[]),
                rule(0, &[0, 65, 32, 64]),
                rule(1, &[64, 1, 64, 33]),
            ],
        ),
        bare(1, &[rule(0, &[0, 32]), rule(0, &[64, 64, 64])]),
        // Nonterminal 2 derives nothing, and so does the start.
        bare(
            3,
            &[
                rule(0, &[65, 66, 65]),
                rule(1, &[]),
                rule(1, &[0, 65, 65]),
                rule(2, &[1, 33, 66]),
            ],
        ),
    ];
    for bytes in files {
        let long = read_long(&bytes).expect("a sound long file");
        let out = written(&bytes);
        let file = read(&out).expect("a sound file");
        let before = short(&long, CAP).expect("few strings");
        let mut after = short(&file, CAP).expect("few strings");
        after.truncate(before.len());
        assert_eq!(before, after, "{bytes:?}");
    }
}
